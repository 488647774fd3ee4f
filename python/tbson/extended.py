"""Values as JSON: the relaxed form of Extended JSON v2 (mongodb/specifications, extended-json), as what json.dumps takes."""

from __future__ import annotations

import base64
import datetime
import math
from struct import unpack_from
from typing import Any, Callable, Dict

from tbson import elements as kinds
from tbson.elements import Element, elements

_EPOCH = datetime.datetime(1970, 1, 1)
_END_OF_ISO = 253402300800000  # the year 10000
_BIAS = 6176


def _text(data: bytes, start: int) -> str:
    return data[start + 4 : start + 3 + int(unpack_from("<i", data, start)[0])].decode(errors="replace")


def _object_id(data: bytes, start: int) -> Dict[str, str]:
    return {"$oid": data[start : start + 12].hex()}


def _double(data: bytes, start: int) -> Any:
    (value,) = unpack_from("<d", data, start)
    if math.isfinite(value):
        return value
    return {"$numberDouble": "NaN" if math.isnan(value) else "Infinity" if value > 0 else "-Infinity"}


def _document(data: bytes, start: int) -> Dict[str, Any]:
    return {element.key.decode(errors="replace"): json_of(data, element) for element in elements(data, start)}


def _array(data: bytes, start: int) -> Any:
    return [json_of(data, element) for element in elements(data, start)]


def _binary(data: bytes, start: int) -> Any:
    length, subtype = unpack_from("<iB", data, start)
    contents = data[start + 5 : start + 5 + length]
    contents = contents[4:] if subtype == 2 else contents
    return {"$binary": {"base64": base64.b64encode(contents).decode(), "subType": f"{subtype:02x}"}}


def _date(data: bytes, start: int) -> Any:
    (milliseconds,) = unpack_from("<q", data, start)
    if not 0 <= milliseconds < _END_OF_ISO:
        return {"$date": {"$numberLong": str(milliseconds)}}
    moment = (_EPOCH + datetime.timedelta(milliseconds=milliseconds)).isoformat(timespec="milliseconds")
    return {"$date": moment.replace(".000", "") + "Z"}


def _regex(data: bytes, start: int) -> Any:
    pattern, options = data[start:].split(b"\0", 2)[:2]
    return {"$regularExpression": {"pattern": pattern.decode(errors="replace"), "options": options.decode(errors="replace")}}


def _db_pointer(data: bytes, start: int) -> Any:
    (length,) = unpack_from("<i", data, start)
    return {"$dbPointer": {"$ref": _text(data, start), "$id": _object_id(data, start + 4 + length)}}


def _scoped(data: bytes, start: int) -> Any:
    (length,) = unpack_from("<i", data, start + 4)
    return {"$code": _text(data, start + 4), "$scope": _document(data, start + 8 + length)}


def _timestamp(data: bytes, start: int) -> Any:
    increment, time = unpack_from("<II", data, start)
    return {"$timestamp": {"t": time, "i": increment}}


def _decimal_text(low: int, high: int) -> str:
    """The text of a decimal, after the specification of Decimal128: with an exponent where it is positive, or below -6 with its digits."""
    sign, combination = "-" if high >> 63 else "", high >> 58 & 0x1F
    if combination >= 0x1E:
        return "NaN" if combination == 0x1F else f"{sign}Infinity"
    exponent, significand = high >> 49 & 0x3FFF, (high & 0x1FFFFFFFFFFFF) << 64 | low
    if combination >= 0x18:
        exponent, significand = high >> 47 & 0x3FFF, 0
    digits, exponent = str(significand if significand < 10**34 else 0), exponent - _BIAS
    scientific = exponent + len(digits) - 1
    if exponent > 0 or scientific < -6:
        fraction = f".{digits[1:]}" if len(digits) > 1 else ""
        return f"{sign}{digits[0]}{fraction}E{scientific:+d}"
    if exponent == 0:
        return sign + digits
    padded = digits.rjust(1 - exponent, "0")
    return f"{sign}{padded[:exponent]}.{padded[exponent:]}"


def _decimal(data: bytes, start: int) -> Any:
    return {"$numberDecimal": _decimal_text(*unpack_from("<QQ", data, start))}


_MAKERS: Dict[int, Callable[[bytes, int], Any]] = {
    kinds.DOUBLE: _double,
    kinds.STRING: _text,
    kinds.DOCUMENT: _document,
    kinds.ARRAY: _array,
    kinds.BINARY: _binary,
    kinds.UNDEFINED: lambda data, start: {"$undefined": True},
    kinds.OBJECT_ID: _object_id,
    kinds.BOOLEAN: lambda data, start: data[start] != 0,
    kinds.DATE: _date,
    kinds.NULL: lambda data, start: None,
    kinds.REGEX: _regex,
    kinds.DB_POINTER: _db_pointer,
    kinds.CODE: lambda data, start: {"$code": _text(data, start)},
    kinds.SYMBOL: lambda data, start: {"$symbol": _text(data, start)},
    kinds.CODE_WITH_SCOPE: _scoped,
    kinds.INT32: lambda data, start: unpack_from("<i", data, start)[0],
    kinds.TIMESTAMP: _timestamp,
    kinds.INT64: lambda data, start: unpack_from("<q", data, start)[0],
    kinds.DECIMAL128: _decimal,
    kinds.MAX_KEY: lambda data, start: {"$maxKey": 1},
    kinds.MIN_KEY: lambda data, start: {"$minKey": 1},
}


def json_of(data: bytes, element: Element) -> Any:
    """The value of the element."""
    return _MAKERS[element.kind](data, element.start)
