"""What part of the register an address shows: a day or open versions alone, and a revision."""
import datetime
import re

from problems import Problem, Refused

DAY = r"\d{4}-\d\d-\d\d"
REVISION = r"(?:[1-9][0-9]{0,8}\.)?[0-9]{1,18}"


class Edition:
    """Names of revisions. A register that was restored from a backup may give the number of a revision to other commands. So from the second
    edition on a revision's name has the edition before its number, such as 2.4109, and no address ever means two things."""

    def __init__(self, number):
        self.number = number

    def name(self, revision):
        """The name of a revision in addresses."""
        return str(revision) if self.number == 1 else f"{self.number}.{revision}"

    def number_of(self, name):
        """The number of a revision that an address names."""
        if not re.fullmatch(REVISION, name, re.ASCII):
            raise Refused("revision", "a revision is a whole number, after a restored backup with its edition and a point before it")
        edition, _, number = name.rpartition(".")
        if int(edition or 1) < self.number:
            raise Problem(410, "edition", f"the register was restored from a backup since. Its revisions are now {self.name('R')}")
        if int(edition or 1) > self.number:
            raise Problem(404, "edition", f"the register's revisions are {self.name('R')}")
        return int(number)


class View:
    """The part that the beginning of a path names."""

    def __init__(self, request, url, edition):
        it = request.match_info
        self.named, self.revision, self.url = it.get("day"), it.get("revision"), url
        self.path = (f"/{self.named}" if self.named else "") + (f"/revision/{self.revision}" if self.revision is not None else "")
        self.base = url + self.path
        if self.revision is not None:
            self.revision = edition.number_of(self.revision)
        self.day = self.day_named()

    def day_named(self):
        """The day on which features have to be in force, or None. An open version is one of the last day."""
        if self.named == "today":
            return datetime.datetime.now(datetime.timezone.utc).date().isoformat()
        if self.named == "open":
            return "9999-12-31"
        if self.named is None:
            return None
        day = self.named.removeprefix("day/")
        try:
            datetime.date.fromisoformat(day)
        except ValueError:
            raise Problem(404, "no-resource", f"there is no day {day}") from None
        return day

    @property
    def is_one_day(self):
        return self.named not in (None, "open")

    @property
    def is_fixed(self):
        """Whether the same address shows the same for ever."""
        return self.revision is not None and self.named != "today"

    def fixed_base(self):
        """The beginning of addresses that show the same tomorrow."""
        return f"{self.url}/day/{self.day}" if self.named == "today" else self.base

    def describe(self):
        """The view in words."""
        days = "all versions" if not self.day else "open versions" if self.named == "open" else f"versions in force on {self.day}"
        return f"{days}, at " + ("the revision in force" if self.revision is None else f"revision {self.revision}")

    def others(self):
        """Further addresses to open, with their titles."""
        if not self.path:
            yield "what is in force today", self.url + "/today/"
            yield "open versions", self.url + "/open/"
