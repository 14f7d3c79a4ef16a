"""What mends a construct and has to keep what it has found out: what each such class has."""


class Mender:
    """What mends one construct, or several of one kind, in a port; here, as one that has nothing to do."""

    def __init__(self, port):
        self.port = port

    def texts(self):
        """The texts of which it needs the values: make tells them with its commands, before anything is changed."""
        return []

    def has_use_for_database(self):
        """Whether it may need make's database: make tells it with its commands then."""
        return False

    def look(self):
        """Asks make, before anything is changed."""

    def begin(self):
        """Mends what is known to be refused, before kati is asked."""

    def begin_as(self, before):
        """Mends, before kati is asked, what a port for other goals had to, as it told by `found`."""

    def found(self):
        """What a port for other goals needn't be told by kati, as data; None where there is nothing."""

    def settle(self, translation):
        """Mends what kati takes otherwise than make, by its translation; answers whether that changes the makefile."""
        del translation
        return False

    def settle_beside(self, translation):
        """The same beside what another one mends by this translation, as far as it doesn't hang on that."""
        del translation
        return False

    def end(self):
        """Counts what was done, once nothing more is mended."""

    def head(self):
        """What kati gets at the beginning of the makefile."""
        return []

    def tail(self):
        """What kati gets at the end of the makefile."""
        return []
