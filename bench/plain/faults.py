"""What is wrong with bytes that are read, by the words of 'Notes'."""


class Fault(Exception):
    """`cut` where it is that the bytes end."""

    def __init__(self, text, cut=False):
        super().__init__(text)
        self.text = text
        self.cut = cut
