"""Why a call is refused: an exception for each status of the library, and for what Python refuses before it calls."""


class Refused(Exception):
    """A call that was refused. It changed nothing: columns and arrays are as they were.

    `name` is the refusal's name. The text says what was wrong; it shows no index, since the library tells none.
    """

    says = 'the call was refused'

    def __init__(self, says: 'str | None' = None) -> None:
        self.name = type(self).__name__
        super().__init__('%s: %s' % (self.name, says or self.says))

    def __reduce__(self):
        return (_again, (type(self), self.args))


def _again(kind, args):
    made = kind()
    made.args = args
    return made


class NoMemory(Refused, MemoryError):
    says = 'memory ran out'


class TooManyRows(Refused, ValueError):
    says = 'the column has more than 2^31 rows'


class NoWords(Refused, ValueError):
    says = 'there is no sample word'


class ValidityLength(Refused, ValueError):
    says = 'the validity is of another number of rows, or its bitmap ends before the last row'


class BadOffsets(Refused, ValueError):
    says = "the offsets don't begin at 0, or fall, or don't end where the bytes end, or there is none"


class ValueTooLong(Refused, ValueError):
    says = 'a text or binary has 2^32 bytes or more'


class NotUtf8(Refused, ValueError):
    says = "a text that is no null, or the name of the zone, isn't UTF-8"


class BadUnit(Refused, ValueError):
    says = "the unit is none of 'ns', 'us', 'ms' and 's'"


class OtherType(Refused, TypeError):
    says = 'the column is of another type'


class BufferLength(Refused, ValueError):
    says = 'a buffer is of another length than the rows need'


class NotStorable(Refused, ValueError):
    says = 'no file can hold the tree'


class BadFile(Refused, ValueError):
    says = 'the bytes are no file of trees'


class NotOneTree(Refused, ValueError):
    says = 'the file has no tree, or several'


class Closed(Refused, ValueError):
    says = 'the column was closed'


class Unsupported(Refused, TypeError):
    """Values of a type that no column has, as floats and objects. Raised before the library is called."""

    says = 'no column has values of this type'


class Unexpected(Refused, RuntimeError):
    says = 'the library answered a status that this package never asks for'


BY_STATUS = {
    1: NoMemory, 2: TooManyRows, 3: NoWords, 4: Unexpected, 5: ValidityLength, 6: BadOffsets, 7: ValueTooLong, 8: NotUtf8, 9: BadUnit,
    10: Closed, 11: OtherType, 12: BufferLength, 13: NotStorable, 14: BadFile, 15: NotOneTree,
}


def judge(status: int) -> None:
    """Raises what a status tells; nothing where the call is done."""
    if status:
        raise BY_STATUS.get(status, Unexpected)()
