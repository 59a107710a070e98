"""Converts XML documents of a schema to canonical PER (X.691) or DER (X.690), and back.

The schemas are read once. Then any number of documents is checked, encoded and decoded:

    >>> import ruvkhiska
    >>> orders = ruvkhiska.Schemas.from_files("examples/order.xsd").prepare()
    >>> octets = orders.encode('<order xmlns="urn:po" id="7"><line><sku>A1</sku><qty>3</qty></line></order>')
    >>> octets.hex()
    '0000070102413104'
    >>> orders.stamp.hex()
    '650e89cab5f26de2'
    >>> print(orders.decode(octets).decode())
    <?xml version="1.0" encoding="UTF-8"?>
    <n1:order xmlns:n1="urn:po" id="7"><n1:line><n1:sku>A1</n1:sku><n1:qty>3</n1:qty></n1:line></n1:order>
    <BLANKLINE>

What is rejected raises an exception with its first fault:

    >>> try:
    ...     orders.check('<order xmlns="urn:po" id="7"><line><sku>A1</sku><qty>300</qty></line></order>')
    ... except ruvkhiska.DocumentError as error:
    ...     print(error)
    ...     error.status, error.reason, error.place.line, error.place.column
    input:1:49: invalid: BadText
    (8, 'BadText', 1, 49)

The package calls the shared C library libruvkhiska.so.1. It looks for it at the path in the environment variable
RUVKHISKA_LIBRARY, next to its own installation, and where the loader looks.

Threads may use one `Prepared` at the same time. The calls release the interpreter's lock, and no call waits for another thread's.

Octets that follow one another, as from a link, are read as they come:

    >>> import io
    >>> [len(document) for document in orders.records(io.BytesIO(octets + octets))]
    [142, 142]
"""

from ._errors import DocumentError, EncodingError, Error, OutOfMemory, Place, SchemaError
from ._library import Readable
from ._schemas import Prepared, Schemas, Syntax

__version__ = "1.0.0"
__all__ = [
    "DocumentError",
    "EncodingError",
    "Error",
    "OutOfMemory",
    "Place",
    "Prepared",
    "Readable",
    "SchemaError",
    "Schemas",
    "Syntax",
]

# Tracebacks and help show the names by which they are imported.
for _it in (DocumentError, EncodingError, Error, OutOfMemory, Place, Prepared, SchemaError, Schemas):
    _it.__module__ = __name__
