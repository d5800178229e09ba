"""The service of tools/live: what it does with what comes, and when."""

from __future__ import annotations

import sys
import time
from contextlib import suppress
from pathlib import Path

from .capacity import capacity
from .inputs import MOST_LINE
from .loads import total
from .metrics import Metric, text_of, write
from .service_runs import Directory, Ended, Ends, StateFile, cone_bits_of, directories, ended_in, remove_old
from .service_runs import free, reported_in, settle, wait_for
from .shown import Shown, Wanted, gauges, told_lost
from .sieve import CHUNK, Lines, Sifted
from .sources import Command, File, Pipe
from .whole_lines import WholeLines

# A block of input has at most so many bytes of a cone's capacity: no more records without amounts.
BLOCKS_A_CONE = 8
WAIT = 0.5
BETWEEN_LOOKS = 0.5
BETWEEN_METRICS = 5.0
BETWEEN_BAD = 10.0
# So many runs may fail one after the other.
MOST_FAILURES = 5
DONE, DISK_IS_FULL = 0, 3


class Service:
    def __init__(self, wanted: Wanted, sieve: Lines, head: Path) -> None:
        sys.stdout.reconfigure(encoding="utf-8", errors="replace")
        self.wanted = wanted
        self.sieve = sieve
        self.head = head
        self.file = StateFile(wanted.folder / "state")
        self.state = self.file.state
        self.source: Command | File | Pipe
        self.directory: Directory | None = None
        self.shown: Shown | None = None
        self.lines = WholeLines()
        # Of what was read: the whole lines that weren't handed on yet, and whether they are read again.
        self.left, self.is_sent_back = b"", False
        self.is_stopping = self.is_full = self.is_stalled = False
        self.failures = 0
        # Of the last records: how many, or how much, were read again and stands in a journal.
        self.skipped = 0
        self.came = self.looked = self.measured = time.monotonic()
        self.bad_told, self.bad_untold = 0.0, 0
        self.chunk = min(CHUNK, max(1, capacity(wanted.settings) // BLOCKS_A_CONE))

    def stop(self) -> None:
        self.is_stopping = True

    def tell(self, text: str) -> None:
        print(f"live: {text}", file=sys.stderr, flush=True)

    # --- the stream

    def serve(self) -> int:
        self.settle_left()
        self.begin_line()
        try:
            self.read_all()
        except BaseException:
            # Whatever it was, the run ends in order.
            with suppress(OSError):
                self.end("the service fails")
            raise
        return self.close()

    def read_all(self) -> None:
        """Reads until it is stopped, the disk is full, or the source ends."""
        while not self.is_stopping and self.has_place():
            # It may send the source back.
            self.tick()
            data = self.source.read(self.most(), WAIT)
            if self.source.is_new:
                self.source.is_new = False
                self.sift(self.lines.last())
            if data is None:
                self.stall()
            elif data:
                self.take(data)
            elif not self.begin_again():
                self.sift(self.lines.last())
                break

    def take(self, data: bytes) -> None:
        self.came = time.monotonic()
        if self.is_stalled:
            self.is_stalled = False
            self.tell("the source goes on")
        whole, too_long = self.lines.take(data)
        if too_long:
            self.count_bad(too_long, f"a line of more than {MOST_LINE} bytes")
        self.sift(whole)

    def begin_line(self) -> None:
        """A named pipe may go on inside a line whose beginning the last service had read."""
        state = self.state
        if not isinstance(self.source, Pipe) or not self.source.path:
            return
        if state.cut:
            self.tell("the first line is left out, since its beginning may be missing")
            self.lines.is_skipping = True
            if not state.cut_is_counted:
                self.count_cut()
        state.cut, state.cut_is_counted = True, False
        self.file.save(synced=True)

    def count_cut(self) -> None:
        """A line of which a part is missing. With amounts it is none: who knows how much it counts."""
        if self.wanted.weighs:
            self.state.bad += 1
        else:
            self.state.records += 1
            self.state.lost += 1

    def sift(self, data: bytes) -> None:
        """Takes whole lines, as many at once as there are to be. It may send the source back."""
        self.left = data
        while self.left:
            had_head, self.skipped = bool(self.sieve.head), 0
            sifted, self.left = self.sieve.sift_some(self.left)
            if self.sieve.head and not had_head:
                self.head.write_bytes(self.sieve.head)
            if self.state.upto:
                # What was read before was counted, too.
                sifted = self.unskipped(sifted)
            self.count_bad(sifted.bad, sifted.why)
            if sifted.load().items:
                self.hand_on(sifted)
            else:
                self.count(sifted)

    def unskipped(self, sifted: Sifted) -> Sifted:
        """Those of records that are read again which stand in no journal."""
        self.skipped = min(self.state.skip, sifted.load().weight)
        self.state.skip -= self.skipped
        return self.sieve.behind(sifted, self.skipped)

    def most(self) -> int:
        """How much is read at once: not beyond the place up to which it is read again."""
        upto, place, most = self.state.upto, self.source.place, min(self.chunk, self.sieve.at_once())
        if not upto or place.get("inode") != upto["inode"]:
            return most
        if place["at"] < upto["at"]:
            return min(most, upto["at"] - place["at"])
        self.state.upto, self.state.skip = {}, 0
        return most

    def count_bad(self, count: int, why: str) -> None:
        self.state.bad += count
        self.bad_untold += count
        now = time.monotonic()
        if self.bad_untold and (now >= self.bad_told + BETWEEN_BAD or self.wanted.stops_at_bad):
            self.tell(f"{self.bad_untold} lines are no records, the last ones: {why}")
            self.bad_untold, self.bad_told = 0, now
        if count and self.wanted.stops_at_bad:
            self.is_stopping = True

    def save(self) -> None:
        place = dict(self.source.place)
        if place:
            place["at"] = max(0, place["at"] - len(self.lines.rest) - len(self.left) - self.sieve.held())
        self.state.place = place
        self.file.save()

    def hand_on(self, sifted: Sifted) -> None:
        directory = self.directory
        more, self.is_sent_back = sifted.load(), False
        if directory is not None and directory.given.items and not directory.has_room(more, self.wanted.full):
            self.end("its fullest cone is full enough")
            if self.is_sent_back:
                # These come again behind those that it lost, and so do the lines that are none.
                self.state.bad -= sifted.bad
                return
        if self.directory is None:
            self.begin(sifted)
        else:
            self.count(sifted)
        if self.directory is not None and not self.directory.give(sifted.data, self.show):
            self.recover()

    def count(self, sifted: Sifted) -> None:
        """Writes down records that are handed on next: in one step that they were read, and where they go."""
        self.state.records += 0 if self.state.upto else sifted.records
        self.state.given += sifted.load().weight
        if self.directory is not None:
            self.directory.given = self.directory.given.plus(sifted.load())
        self.save()

    def stall(self) -> None:
        most = self.wanted.stall
        if most is not None and not self.is_stalled and time.monotonic() >= self.came + most:
            self.is_stalled = True
            self.tell(f"nothing came for {most:g} seconds")

    def begin_again(self) -> bool:
        """Behind the end of the source: whether it was begun again."""
        self.tell(f"{self.source.what} has ended")
        until = time.monotonic() + self.wanted.pause
        while self.wanted.again and not self.is_stopping:
            if time.monotonic() >= until:
                self.sift(self.lines.last())
                self.source.again()
                return True
            time.sleep(BETWEEN_LOOKS)
            self.tick()
        return False

    # --- directories

    def begin(self, sifted: Sifted) -> None:
        """Begins a directory, to which these records go first."""
        self.state.serial += 1
        name = f"run-{self.state.serial:06}-{time.strftime('%Y%m%dT%H%M%SZ', time.gmtime())}"
        place = self.wanted.folder / name
        self.state.folder, self.state.given = name, 0
        if isinstance(self.source, File):
            self.state.start = dict(self.state.place) or {**self.source.place, "at": 0}
            self.state.start_skip, self.skipped = self.skipped, 0
        self.count(sifted)
        self.directory = Directory(place, self.wanted.settings, self.wanted.packing, self.wanted.named)
        self.directory.given = sifted.load()
        self.shown = Shown(place, self.wanted.named)
        self.tell(f"{name}: begun")
        if beginning := self.sieve.beginning():
            self.directory.give(beginning, self.show)

    def end(self, why: str) -> None:
        """Ends the run in order."""
        if self.directory is not None:
            self.show()
            self.settle(self.directory.end(), why)

    def recover(self) -> None:
        """Behind a crash of the run or of its packer."""
        directory = self.directory
        if directory is None:
            return
        self.settle(directory.stop(), "its run has ended by itself")
        # The first one may fail for what is over by now.
        self.failures = 1 if total(directory.loads).items else self.failures + 1
        if self.failures >= MOST_FAILURES:
            raise Ends(f"{MOST_FAILURES} runs failed one after the other: see {directory.place}/said")
        time.sleep(min(2**self.failures / 4, 10))

    def settle(self, how: str, why: str) -> None:
        directory, self.directory = self.directory, None
        if directory is not None:
            directory.count()
            self.note(directory.place, settle(directory.place, directory.given.weight, how), why)
            if how == "closed":
                self.failures = 0

    def note(self, place: Path, ended: Ended, why: str) -> None:
        is_own = self.shown is not None and self.shown.place == place
        shown = self.shown if is_own else Shown(place, self.wanted.named)
        for report in reported_in(place):
            shown.show(*report)
        shown.opened.close()
        is_again = self.goes_back(place, ended)
        self.state.lost += 0 if is_again else ended.lost
        self.state.folder, self.state.given = "", 0
        self.file.save(synced=True)
        recovered = {None: "", 0: ", recovered"}.get(ended.recovered, f", not recovered: status {ended.recovered}")
        parts = f"{ended.events} events, {told_lost(ended.lost, self.wanted.weighs)}"
        self.tell(f"{place.name}: {why}; {ended.how}{recovered}: {parts}")
        if is_again:
            self.tell("these are read again")
        for old in remove_old(self.wanted.folder, self.wanted.keep):
            self.tell(f"{old.name}: removed")
        self.measure()

    def settle_left(self) -> None:
        """What the last service left."""
        self.count_ended()
        for place in directories(self.wanted.folder):
            if (place / "ended").exists():
                continue
            if not wait_for(place):
                self.tell(f"{place.name}: its run doesn't end, and is left")
                continue
            given = self.state.given if place.name == self.state.folder else 0
            if (place / "options").exists():
                self.note(place, settle(place, given, "left"), "the service had ended")
            else:
                place.rename(place.with_name(f"unbegun-{place.name}"))
        if self.state.folder:
            ended = Ended("not begun", self.state.given, 0, self.state.given)
            self.note(self.wanted.folder / self.state.folder, ended, "the service had ended")

    def goes_back(self, place: Path, ended: Ended) -> bool:
        """Whether the records that a directory lost are read again: of a file that is still there, where the journal of
        one cone has the first ones of those that were handed on."""
        state, source = self.state, self.source
        if not ended.lost or not isinstance(source, File) or place.name != state.folder or not state.start:
            return False
        if cone_bits_of(place, self.wanted.settings) or source.name_of(state.start) is None:
            return False
        state.upto = state.upto or dict(state.place)
        state.skip = state.start_skip + ended.given - ended.lost
        state.place = dict(state.start)
        source.go_on(state.start)
        self.sieve.forget()
        self.lines.forget()
        self.left, self.is_sent_back = b"", True
        return True

    def count_ended(self) -> None:
        """A directory may have ended, and the service before it could count what that had lost."""
        place = self.wanted.folder / self.state.folder
        if self.state.folder and (ended := ended_in(place)) is not None:
            self.state.lost += 0 if self.goes_back(place, ended) else ended.lost
            self.state.folder, self.state.given = "", 0
            self.file.save(synced=True)

    # --- what is looked at again and again

    def tick(self) -> None:
        now = time.monotonic()
        if now < self.looked + BETWEEN_LOOKS:
            return
        self.looked = now
        if self.directory is not None:
            self.show()
            if self.shown is not None and self.shown.is_deaf:
                self.stop()
            if not self.directory.is_alive():
                self.recover()
            elif self.directory.given.items and self.directory.is_over(self.wanted.period):
                self.end("its time is over")
        if now >= self.measured + BETWEEN_METRICS:
            self.measure()

    def show(self) -> None:
        run = self.directory.look() if self.directory is not None else None
        for cone in run.cones if run is not None and self.shown is not None else []:
            number, reports = cone.header.cone, cone.log.reports
            for report in reports[self.shown.told.get(number, 0) :]:
                self.shown.show(number, report.key, report.at)
            self.shown.told[number] = len(reports)

    def has_place(self) -> bool:
        self.is_full = free(self.wanted.folder) < self.wanted.reserve
        return not self.is_full

    def measure(self) -> None:
        self.measured = time.monotonic()
        if self.wanted.metrics is not None:
            with suppress(OSError):
                write(self.wanted.metrics, text_of(self.metrics()))

    def metrics(self) -> list[Metric]:
        state, directory = self.state, self.directory
        loads = directory.count() if directory is not None else []
        full = max((load.share(directory.room) for load in loads), default=0) if directory is not None else 0
        reports = len(self.shown.keys) if directory is not None and self.shown is not None else 0
        values = {
            "up": int(not self.is_stopping and not self.is_full),
            "records_total": state.records,
            "bad_total": state.bad,
            "lost_total": state.lost,
            "lost_amount_total": state.lost,
            "runs_total": state.serial,
            "stalled": int(self.is_stalled),
            "free_bytes": free(self.wanted.folder),
            "events": total(loads).items,
            "weight": total(loads).weight,
            "reports": reports,
            "full_ratio": full,
        }
        return gauges(values, self.wanted.folder.name, self.wanted.weighs)

    # --- the end

    def close(self) -> int:
        self.source.end()
        if isinstance(self.source, Command) and not self.is_full:
            while data := self.source.read(self.chunk, WAIT):
                self.take(data)
        is_cut = bool(self.lines.rest) and not isinstance(self.source, File)
        if is_cut:
            self.count_cut()
            self.tell("the last line had no end, and is in no journal")
        self.state.cut = self.state.cut_is_counted = is_cut or self.lines.is_skipping
        if self.is_full:
            least = self.wanted.reserve
            self.tell(f"the disk has {free(self.wanted.folder)} bytes free, less than {least}: ending the run in order")
        self.end("the disk is full" if self.is_full else "the service ends")
        self.is_stopping = True
        self.file.save(synced=True)
        self.measure()
        parts = f"{self.state.bad} lines that are none, {told_lost(self.state.lost, self.wanted.weighs)}"
        self.tell(f"ended: {self.state.records} records, {parts}")
        return DISK_IS_FULL if self.is_full else DONE
