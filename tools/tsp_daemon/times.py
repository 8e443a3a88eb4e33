"""Times in words: as RFC 3339 has them, and as date(1) does. All are microseconds since 1970."""
import re
import subprocess
import time
from datetime import datetime, timedelta, timezone

from tsp_daemon.usage import BAD_WORDS
from tsp_texts.tool import Fault

EPOCH = datetime(1970, 1, 1, tzinfo=timezone.utc)
MILLION = 1_000_000
RFC_3339 = re.compile(r'([0-9]{4})-([0-9]{2})-([0-9]{2})[Tt ]([0-9]{2}):([0-9]{2}):([0-9]{2})(?:\.([0-9]{1,6}))?(?:[Zz]|([+-])([0-9]{2}):([0-9]{2}))')
SECONDS = re.compile(r'@(-?)([0-9]{1,10})(?:\.([0-9]{1,6}))?')


def machine_time():
    """This machine's wall clock."""
    return time.time_ns() // 1000


def seconds(moment):
    """A time as seconds since 1970, exactly."""
    whole, rest = divmod(abs(moment), MILLION)
    return f'{"-" if moment < 0 else ""}{whole}.{rest:06}'


def rfc_3339(moment, is_utc):
    """A time as RFC 3339 has it, in UTC or in this machine's zone; as @SECONDS if no calendar has it."""
    try:
        at = EPOCH + timedelta(microseconds=moment)
        text = at.isoformat(timespec='microseconds') if is_utc else at.astimezone().isoformat(timespec='microseconds')
    except (OverflowError, ValueError, OSError):
        return f'@{seconds(moment)}'
    return text.replace('+00:00', 'Z') if is_utc else text


def as_date(moment, form, is_utc):
    """A time as date(1) writes it by this format."""
    command = ['date'] + (['-u'] if is_utc else []) + [f'--date=@{seconds(moment)}', form]
    try:
        ran = subprocess.run(command, stdin=subprocess.DEVNULL, stdout=subprocess.PIPE, stderr=subprocess.DEVNULL, check=False)
    except OSError as fault:
        raise Fault(f'date(1), which formats times: {fault.strerror}', BAD_WORDS) from fault
    if ran.returncode:
        raise Fault(f'\'{form}\': date(1) has no such format', BAD_WORDS)
    return ran.stdout.decode('utf-8', 'replace').rstrip('\n')


def read(text):
    """The time that a text spells, as RFC 3339 or as @SECONDS; None where it spells none."""
    found = SECONDS.fullmatch(text)
    if found:
        moment = int(found[2]) * MILLION + int((found[3] or '').ljust(6, '0'))
        return -moment if found[1] else moment
    found = RFC_3339.fullmatch(text)
    if not found:
        return None
    *parts, fraction, sign, hours, minutes = found.groups()
    try:
        at = datetime(*map(int, parts), tzinfo=timezone.utc) + timedelta(microseconds=int((fraction or '').ljust(6, '0')))
    except ValueError:
        return None
    ahead = timedelta(hours=int(hours), minutes=int(minutes)) if sign else timedelta()
    return (at - (-ahead if sign == '-' else ahead) - EPOCH) // timedelta(microseconds=1)
