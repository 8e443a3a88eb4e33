"""Addresses A.B.C.D[:PORT], as they are given in words."""
import re

PORT = 525
NUMBER = re.compile('0|[1-9][0-9]{0,4}')


class BadAddress(Exception):
    """A word is no address; its text says why."""


def number(text, most):
    """Whether a text is a number up to this, without leading zeros."""
    return NUMBER.fullmatch(text) and int(text) <= most


def read(text):
    """The address that a word spells, with its port; None where it is a name. BadAddress is raised where it is neither."""
    if text.count(':') > 1 or text.startswith('['):
        raise BadAddress(f'\'{text}\' is no address of IPv4, and no other is served')
    host, colon, port = text.partition(':')
    is_address = bool(re.fullmatch(r'[0-9.]+', host))
    if not is_address:
        if colon:
            raise BadAddress(f'\'{text}\': a name of the hosts file has no port behind it, which that file says')
        return None
    parts = host.split('.')
    if len(parts) != 4 or not all(number(part, 255) for part in parts):
        raise BadAddress(f'\'{host}\' is no address: four numbers up to 255 without leading zeros, with dots between them')
    if not 1 <= int(parts[0]) <= 223:
        raise BadAddress(f'\'{host}\' isn\'t one host\'s address')
    if colon and (not number(port, 65535) or port == '0'):
        raise BadAddress(f'\'{text}\': a port is a number from 1 to 65535')
    return f'{host}:{port or PORT}'
