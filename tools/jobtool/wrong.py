"""What can't be read, as a sentence for the user."""


class Wrong(Exception):
    pass
