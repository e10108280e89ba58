"""As much of libpq, by ctypes, as the server needs, so that it runs where no driver for Python is installed. A host of
your own uses a driver, such as psycopg; the statements in store.py stay."""
import ctypes
from ctypes import POINTER, c_char_p, c_int, c_void_p

COMMAND_DONE, ROWS = 1, 2
CALLS = {
    "PQconnectdb": (c_void_p, [c_char_p]),
    "PQstatus": (c_int, [c_void_p]),
    "PQerrorMessage": (c_char_p, [c_void_p]),
    "PQfinish": (None, [c_void_p]),
    "PQexecParams": (
        c_void_p,
        [c_void_p, c_char_p, c_int, c_void_p, POINTER(c_char_p), POINTER(c_int), POINTER(c_int), c_int],
    ),
    "PQresultStatus": (c_int, [c_void_p]),
    "PQcmdTuples": (c_char_p, [c_void_p]),
    "PQntuples": (c_int, [c_void_p]),
    "PQnfields": (c_int, [c_void_p]),
    "PQgetvalue": (c_char_p, [c_void_p, c_int, c_int]),
    "PQclear": (None, [c_void_p]),
}


class DatabaseError(Exception):
    """The database refused, or is away."""


class Database:
    """One connection."""

    def __init__(self, where):
        self.calls = ctypes.CDLL("libpq.so.5")
        for name, (result, arguments) in CALLS.items():
            call = getattr(self.calls, name)
            call.restype, call.argtypes = result, arguments
        self.connection = self.calls.PQconnectdb(where.encode())
        if self.calls.PQstatus(self.connection) != 0:
            self.fail()

    def fail(self):
        raise DatabaseError(self.calls.PQerrorMessage(self.connection).decode().strip())

    def ask(self, statement, *values):
        """The rows of a statement, as text, or how many rows it changed. Bytes go as hex, as bytea reads them."""
        texts = [b"\\x" + value.hex().encode() if isinstance(value, bytes) else str(value).encode() for value in values]
        given = (c_char_p * len(texts))(*texts)
        result = self.calls.PQexecParams(
            self.connection, statement.encode(), len(texts), None, given, None, None, 0
        )
        try:
            kind = self.calls.PQresultStatus(result)
            if kind == ROWS:
                return [
                    [self.calls.PQgetvalue(result, row, field).decode() for field in range(self.calls.PQnfields(result))]
                    for row in range(self.calls.PQntuples(result))
                ]
            if kind == COMMAND_DONE:
                return int(self.calls.PQcmdTuples(result) or 0)
            return self.fail()
        finally:
            self.calls.PQclear(result)
