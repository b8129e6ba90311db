"""Two lifeboat stations in real databases, and the coordinator between them. docs/DATABASES.md says what they show."""
