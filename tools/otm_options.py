"""The options of otm serve."""

from otm_table import ANSWERS, SYNCS

OPTIONS = {
    "--socket": None,
    "--tcp": None,
    "--journal": None,
    "--sync": ANSWERS,
    "--standby": False,
    "--mode": 0o600,
    "--connections": 256,
    "--patience": 60.0,
}


def read_options(words):
    """The options of 'otm serve', or a ValueError with a sentence."""
    options, words = dict(OPTIONS), list(words)
    while words:
        word = words.pop(0)
        if word not in options:
            raise ValueError(f"'otm serve' knows no {word}; 'otm --help' shows what there is.")
        if word == "--standby":
            options[word] = True
            continue
        if not words:
            raise ValueError(f"{word} needs something behind it.")
        options[word] = _value(word, words.pop(0))
    for word in ("--socket", "--journal"):
        if options[word] is None:
            raise ValueError(f"'otm serve' needs {word}: otm serve --socket PATH --journal WHERE.")
    return options


def _value(option, text):
    try:
        if option == "--tcp":
            host, _, port = text.rpartition(":")
            if not host or not 0 <= int(port) <= 65535:
                raise ValueError
            return host.strip("[]"), int(port)
        if option == "--mode":
            if not 0 <= int(text, 8) <= 0o777:
                raise ValueError
            return int(text, 8)
        if option == "--connections":
            if not 1 <= int(text) <= 10000:
                raise ValueError
            return int(text)
        if option == "--patience":
            if not 0 < float(text) < 1e6:
                raise ValueError
            return float(text)
    except ValueError:
        forms = {"--tcp": "HOST:PORT", "--mode": "an octal mode, as 660", "--connections": "1 to 10000", "--patience": "seconds"}
        raise ValueError(f"'{text}' stands behind {option}, where {forms[option]} is due.") from None
    if option == "--sync" and text not in SYNCS:
        raise ValueError(f"'{text}' stands behind --sync, where {', '.join(SYNCS)} is due.")
    return text
