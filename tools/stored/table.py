"""A table of cases: each has words, under a heading, and what its program makes of them."""


class Table(list):
    subject = ''

    def heading(self, words):
        """of the cases that follow"""
        self.subject = words

    def case(self, words, *parts):
        self.append((f'{self.subject}: {words}', *parts))
