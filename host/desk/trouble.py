"""What stops a command."""


class Trouble(Exception):
    """No answer can be had; the sentence for the user says why."""
