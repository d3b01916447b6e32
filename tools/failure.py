"""What a tool raises where it cannot go on."""

WRONG_WORDS = 1


class Failure(Exception):
    """A tool cannot go on: the text is for people, and `status` is what the tool's call ends with."""

    def __init__(self, text, status=WRONG_WORDS):
        super().__init__(text)
        self.status = status
