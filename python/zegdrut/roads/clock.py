"""Convert between steps of a run and clock times.

    clock = Clock.read("06:30", date="2026-03-02", timezone="Europe/Berlin")
    clock.to_step("07:00"), clock.to_text(1_800)   # 1,800 steps of a second; "07:00"
    clock.to_step(12.5)                            # a number is minutes after the beginning: 750

A step is a second. If `begin` is not given, the clock starts at 0:00. A clock time before the beginning belongs to the next day: a run
that begins at 22:00 contains 00:30. With a date and a time zone, an hour that a clock change skips does not exist. If an hour comes
twice, a clock time means the first one; "02:30+01:00" means the one with that offset from UTC.
"""
from __future__ import annotations

import datetime
import re
from dataclasses import dataclass
from zoneinfo import ZoneInfo

DAY = 86_400
TIME = re.compile(r"(\d{1,2}):(\d{2})(?::(\d{2}))?([+-]\d{2}:\d{2})?")
ACCEPTED = '"7:00", "07:00", "07:00:30", or a number of minutes after the beginning'


class InvalidTime(ValueError):
    """A time, date or time zone is invalid. The message names the field, the value, and what is accepted."""


def read_clock_time(value: object, field: str) -> int:
    """Return the seconds after midnight of a clock time like "7:00". InvalidTime: it is not a clock time."""
    match = TIME.fullmatch(value.strip()) if isinstance(value, str) else None
    if match is None:
        raise InvalidTime(f'{field}: {value!r} is not a clock time: write "7:00", "07:00" or "07:00:30"')
    hours, minutes, seconds = (int(part or 0) for part in match.groups()[:3])
    if hours > 23 or minutes > 59 or seconds > 59:
        raise InvalidTime(f"{field}: {value!r} is not a clock time: 0:00 to 23:59:59")
    return hours * 3_600 + minutes * 60 + seconds


@dataclass(frozen=True)
class Clock:
    """The clock time of step 0 in seconds after midnight, with the date and the time zone if they are known."""

    begin: int = 0
    date: datetime.date | None = None
    zone: ZoneInfo | None = None
    fold: int = 0
    """1 if step 0 is in the second one of an hour that comes twice."""

    @classmethod
    def read(cls, begin: object = None, date: object = None, timezone: object = None) -> Clock:
        """Read the fields `begin`, `date` and `timezone` of a file. InvalidTime: one of them is invalid."""
        seconds = 0 if begin is None else read_clock_time(begin, "begin")
        day = None if date is None else read_date(date, "date")
        zone = None if timezone is None else read_zone(timezone, "timezone")
        if zone is not None and day is None:
            raise InvalidTime("timezone: add a date: whether the clock changes depends on the day")
        clock = cls(seconds, day, zone)
        if zone is None:
            return clock
        match = TIME.fullmatch(str(begin).strip())
        instant = clock._instant(datetime.datetime.combine(clock._day(0), clock._time(seconds)), f"begin: {begin!r}",
                                 match.group(4) if match else None)
        return cls(seconds, day, zone, instant.astimezone(zone).fold)

    # Steps

    def to_step(self, value: object, field: str = "time") -> int:
        """Return the step of a clock time, or of minutes after the beginning. InvalidTime: it is neither, or that hour does not exist."""
        if isinstance(value, (int, float)) and not isinstance(value, bool):
            return round(value * 60)
        if not isinstance(value, str) or TIME.fullmatch(value.strip()) is None:
            raise InvalidTime(f"{field}: {value!r} is not a time: write {ACCEPTED}")
        seconds = read_clock_time(value, field)
        after = seconds - self.begin if seconds >= self.begin else seconds - self.begin + DAY
        if self.zone is None:
            return after
        match = TIME.fullmatch(value.strip())
        local = datetime.datetime.combine(self._day(0 if seconds >= self.begin else 1), self._time(seconds))
        offset = match.group(4) if match else None
        found = self._instant(local, f"{field}: {value!r}", offset)
        return round((found - self._start()).total_seconds())

    def find_step(self, moment: datetime.datetime) -> int:
        """Return the step of a date and time; it is negative before the beginning. If the clock has no date, the date is ignored."""
        if self.zone is not None and moment.tzinfo is not None:
            return round((moment - self._start()).total_seconds())
        if self.date is None:
            return (moment.hour * 3_600 + moment.minute * 60 + moment.second - self.begin) % DAY
        if self.zone is not None:
            found = moment.replace(tzinfo=self.zone).astimezone(datetime.timezone.utc)
            return round((found - self._start()).total_seconds())
        begin = datetime.datetime.combine(self.date, self._time(self.begin))
        return round((moment.replace(tzinfo=None) - begin).total_seconds())

    def find_moment(self, time: datetime.time) -> datetime.datetime:
        """Return the date and time of a clock time: on the first day, or on the next day if the time is before the beginning."""
        seconds = time.hour * 3_600 + time.minute * 60 + time.second
        return datetime.datetime.combine(self._day(0 if seconds >= self.begin else 1), time)

    def comes_twice(self, moment: datetime.datetime) -> bool:
        """Return whether a date and time without an offset comes twice, because the clock is put back."""
        return self.zone is not None and moment.tzinfo is None and not self.skips(moment) and (
            moment.replace(tzinfo=self.zone, fold=0).utcoffset() != moment.replace(tzinfo=self.zone, fold=1).utcoffset())

    def skips(self, moment: datetime.datetime) -> bool:
        """Return whether a date and time without an offset does not exist, because the clock is put forward."""
        if self.zone is None or moment.tzinfo is not None:
            return False
        there = moment.replace(tzinfo=self.zone).astimezone(datetime.timezone.utc).astimezone(self.zone)
        return there.replace(tzinfo=None) != moment.replace(fold=0)

    # Texts

    def to_text(self, step: int) -> str:
        """Return the clock time of a step: "07:00", with seconds unless it is a whole minute."""
        local = self.to_datetime(step)
        return local.strftime("%H:%M:%S" if local.second else "%H:%M")

    def to_date_text(self, step: int) -> str:
        """Return the clock time of a step with the date and the offset from UTC, if they are known."""
        local = self.to_datetime(step)
        if self.date is None:
            day = (self.begin + step) // DAY + 1
            return self.to_text(step) + (f" (day {day})" if day != 1 else "")
        return local.isoformat(sep=" ", timespec="seconds" if local.second else "minutes")

    def shift(self, steps: int) -> Clock:
        """Return the clock of a run that begins some steps later, or earlier if `steps` is negative."""
        local = self.to_datetime(steps)
        return Clock(local.hour * 3_600 + local.minute * 60 + local.second, None if self.date is None else local.date(), self.zone, local.fold)

    def to_datetime(self, step: int) -> datetime.datetime:
        """Return the date and time of a step. Without a date the day is 1 January 2001."""
        if self.zone is not None:
            return (self._start() + datetime.timedelta(seconds=step)).astimezone(self.zone)
        return datetime.datetime.combine(self._day(0), self._time(self.begin)) + datetime.timedelta(seconds=step)

    def to_file_text(self, step: int) -> str:
        """Return the clock time of a step for the name of a file: "0700"."""
        return self.to_text(step).replace(":", "")

    # Inside

    def _day(self, number: int) -> datetime.date:
        return (self.date or datetime.date(2001, 1, 1)) + datetime.timedelta(days=number)

    @staticmethod
    def _time(seconds: int) -> datetime.time:
        return datetime.time(seconds // 3_600, seconds // 60 % 60, seconds % 60)

    def _start(self) -> datetime.datetime:
        local = datetime.datetime.combine(self._day(0), self._time(self.begin))
        return local.replace(tzinfo=self.zone, fold=self.fold).astimezone(datetime.timezone.utc)

    def _instant(self, local: datetime.datetime, name: str, offset: str | None = None) -> datetime.datetime:
        """Return the instant of a local time. InvalidTime: the clock skips it, or does not have that offset then."""
        both = [local.replace(tzinfo=self.zone, fold=fold) for fold in (0, 1)]
        found = [one.astimezone(datetime.timezone.utc) for one in both]
        if found[0].astimezone(self.zone).replace(tzinfo=None) != local:
            raise InvalidTime(f"{name} does not exist on {local.date()} in {self.zone}: the clock change skips it")
        if offset is None:
            return found[0]
        sign = -1 if offset.startswith("-") else 1
        wanted = sign * datetime.timedelta(hours=int(offset[1:3]), minutes=int(offset[4:6]))
        for one, instant in zip(both, found):
            if one.utcoffset() == wanted:
                return instant
        raise InvalidTime(f"{name}: the offset from UTC in {self.zone} is then {both[0].strftime('%z')}")


def read_date(value: object, field: str) -> datetime.date:
    """Read a date like "2026-03-02". InvalidTime: it is not a date."""
    try:
        if isinstance(value, str):
            return datetime.date.fromisoformat(value)
    except ValueError:
        pass
    raise InvalidTime(f'{field}: {value!r} is not a date: write year, month and day like "2026-03-02"')


def read_zone(value: object, field: str) -> ZoneInfo:
    """Read a time zone like "Europe/Berlin". InvalidTime: there is no time zone of that name."""
    try:
        if isinstance(value, str) and value:
            return ZoneInfo(value)
    except (ValueError, OSError, KeyError):
        pass
    raise InvalidTime(f'{field}: {value!r} is not a time zone: write a name like "Europe/Berlin" or "UTC"')
