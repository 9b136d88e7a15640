"""The fields of a query (01, The query; 02, E1), each as bytes."""


def field(tag, value):
    return bytes([tag]) + len(value).to_bytes(2, "big") + value


def numbers(*terms):
    return b"".join(term.to_bytes(2, "big") for term in terms)


def base(value=0):
    return field(1, value.to_bytes(4, "big"))


def boolean(truth=0):
    return field(2, bytes([truth]))


def variable():
    return field(3, b"")


def write(beneath, index, value):
    return field(4, numbers(beneath, index, value))


def conditional(chooser, if_true, if_false):
    return field(5, numbers(chooser, if_true, if_false))


def read(array, index, value=0):
    return field(6, numbers(array, index) + value.to_bytes(4, "big"))


def equality(left, right, truth, left_witness, right_witness):
    return field(7, numbers(left, right) + bytes([truth]) + numbers(left_witness, right_witness))


def fixed(value=0):
    return field(8, value.to_bytes(4, "big"))
