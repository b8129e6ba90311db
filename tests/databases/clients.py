"""The example's own clients: values of every length come as they are, errors with the database's code, and a client goes on after one."""

from held import hold

from databases.wire import DatabaseError, Gone, quoted


def client(server):
    who, c = server.shown, server.connect()
    hold(f"{who}: numbers, texts, NULL", c.query("SELECT 1, 'boat', NULL, ''") == [(1, "boat", None, "")])
    for length in (250, 251, 65535, 65536, 300000):
        hold(f"{who}: a text of {length}", c.query(f"SELECT '{'x' * length}'") == [("x" * length,)])
    hold(f"{who}: words of other alphabets, and quotes", c.query(f"SELECT {quoted('Læsø ⚓')}, {quoted(chr(39))}") == [("Læsø ⚓", "'")])
    c.query("CREATE TABLE things (n INT)")
    touched = c.query("INSERT INTO things VALUES (1), (2), (3)"), c.query("DELETE FROM things WHERE n > 1")
    hold(f"{who}: how many rows were touched", touched == (3, 2), touched)
    hold(f"{who}: no rows", c.query("SELECT n FROM things WHERE n > 9") == [])
    try:
        c.query("SELECT nonsense FROM things")
        hold(f"{who}: an error is raised", False)
    except DatabaseError as e:
        hold(f"{who}: an error has the database's code", e.code in ("42703", 1054), e)
    hold(f"{who}: and the client goes on", c.query("SELECT n FROM things") == [(1,)])
    c.query("DROP TABLE things")
    c.close()
    try:
        type(c)("/no/such/socket", "otm", "otm")
        hold(f"{who}: nobody there", False)
    except Gone:
        hold(f"{who}: nobody there is said", True)
    try:
        quoted("a\\b")
        hold("a sign that the databases read differently is refused", False)
    except ValueError:
        hold("a sign that the databases read differently is refused", True)
