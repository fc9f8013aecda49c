"""The version of braildesk, which the client, scribe and the program `braildesk` have in common."""


def version() -> str:
    """The version, as `1.0.0`; `unknown` if its file is missing."""
    # imported here, since it takes as long as half of the client
    from importlib.resources import files

    try:
        return files("braildesk").joinpath("VERSION").read_text("ascii").strip()
    except (OSError, ValueError):
        return "unknown"
