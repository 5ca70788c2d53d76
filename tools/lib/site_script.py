"""Scripts for `dali_sim replay`: a site whose rounds are disturbed as numbers from a seed say."""

import dataclasses
import random

from lib import script_forms

MOST_ROUNDS = 30_000
LAST_RUN = 100_000
MOST_AGAIN = 100
LONGEST_ABSENCE = 20

# What may disturb a frame: at most one of these does.
FRAME_TROUBLES = {
    "lost": "no answer to the frame is heard",
    "noise": "a damaged answer is heard, whoever answered",
    "destroyed": "the frame is destroyed, and none, one, some or all of the gear take it all the same",
    "collision": "the frame collides with another one",
}
# What may happen before a round, each by itself.
ROUND_TROUBLES = {
    "lapse": "the bus lapses",
    "power": f"a gear loses its power, for at most {LONGEST_ABSENCE} rounds",
    "restart": f"a controller goes down, for at most {LONGEST_ABSENCE} rounds; every second time its store is told "
    "before to make the commit that is due",
    "expire": "the initialisation of a gear ends",
    "quiet": "the bus is quiet for long",
    "arc": "a controller asks to send a frame of direct arc power",
    "foreign": "another device sends a frame that is no addressing command",
    "show": "the gear and the tables are shown",
}
# What may happen before a controller acts. Where no commit is due, the line is refused, and changes nothing.
COMMIT_TROUBLES = {
    "store": "a controller's store is told to make the commit that is due, if one is",
    "fail": "a controller is told that the commit that is due failed, if one is",
}
TROUBLES = {**FRAME_TROUBLES, **ROUND_TROUBLES, **COMMIT_TROUBLES}


@dataclasses.dataclass
class Site:
    """What a script is made of. `chances` has the chance of each trouble in a round, from 0 to 1. Where `survey` is
    set, each controller begins by a survey, also when it comes up again. So many gear as `used` says come with a short
    address. Each controller restarts so many times as `again` says, when all have ended.
    """

    gear: int
    blocks: list[tuple[int, int]]
    seed: object
    rounds: int
    draws: int
    chances: dict[str, float]
    spell: bool = False
    survey: bool = False
    used: int = 0
    again: int = 0


def troubled(seed: int) -> Site:
    """A site with troubles of most kinds, as the seed says."""
    chance = random.Random(seed)
    blocks = [(16 * it, 16 * it + 15) for it in range(chance.randint(1, 3))]
    gear, rounds = chance.randint(1, 12), chance.randint(200, 600)
    kinds = ("lost", "noise", "destroyed", "collision", "lapse", "power", "restart", "foreign", "arc")
    chances = {it: chance.uniform(0, 0.03) for it in kinds}
    return Site(gear, blocks, seed, rounds, usual_draws(gear), chances, survey=chance.random() < 0.5)


def usual_rounds(gear: int, controllers: int) -> int:
    """About as many rounds as the controllers take until all gear have addresses, where nothing disturbs them."""
    return min(MOST_ROUNDS, 120 * gear * controllers)


def usual_draws(gear: int) -> int:
    return min(script_forms.MOST_DRAWS, 64 * gear)


class Rounds:
    """The lines of a site's rounds, one round after the other."""

    def __init__(self, site: Site) -> None:
        self.site = site
        self.number = random.Random(f"rounds {site.seed}")
        self.lines = []
        self.undisturbed = 0
        # When each gear that is off, and each controller that is down, comes back.
        self.off = {}
        self.down = {}

    def happens(self, trouble: str) -> bool:
        chance = self.site.chances.get(trouble, 0)
        return chance > 0 and self.number.random() < chance

    def pick(self, count: int) -> int:
        return self.number.randrange(count)

    def gear_that_take(self) -> str:
        """The list of gear that take a destroyed frame."""
        gear = range(self.site.gear)
        half = [g for g in gear if self.number.random() < 0.5]
        taking = self.number.choice([[], [self.pick(self.site.gear)], half, list(gear)])
        return ",".join(map(str, taking)) or "-"

    def turn_of_the_bus(self) -> str:
        """The line of the bus, which at most one trouble disturbs."""
        drawn = self.number.random()
        for trouble in FRAME_TROUBLES:
            drawn -= self.site.chances.get(trouble, 0)
            if drawn < 0:
                return f"pump {trouble} {self.gear_that_take()}" if trouble == "destroyed" else f"pump {trouble}"
        return "pump"

    def who_comes_back(self, now: int) -> list[str]:
        """The lines of the gear and controllers that come back before this round."""
        lines = []
        for line, away in (("on", self.off), ("up", self.down)):
            for who in [who for who, back in away.items() if back <= now]:
                lines.append(f"{line} {who}")
                if line == "up" and self.site.survey:
                    lines.append(f"survey {who}")
                del away[who]
        return lines

    def who_goes(self, now: int) -> list[str]:
        """The lines of the gear that lose their power before this round, and of the controllers that go down."""
        lines = []
        gear = self.pick(self.site.gear)
        if self.happens("power") and gear not in self.off:
            lines.append(f"off {gear}")
            self.off[gear] = now + 1 + self.pick(LONGEST_ABSENCE)
        controller = self.pick(len(self.site.blocks))
        if self.happens("restart") and controller not in self.down:
            if self.pick(2):
                lines.append(f"store {controller}")
            lines.append(f"down {controller}")
            self.down[controller] = now + self.pick(LONGEST_ABSENCE + 1)
        return lines

    def before(self, now: int) -> list[str]:
        """The lines of what happens before a round."""
        lines = self.who_goes(now) + self.who_comes_back(now)
        if self.happens("lapse"):
            lines.append("lapse")
        if self.happens("expire"):
            lines.append(f"expire {self.pick(self.site.gear)}")
        if self.happens("quiet"):
            lines.append("quiet")
        if self.happens("arc"):
            frame = f"{2 * self.pick(128):02X}{self.pick(256):02X}"
            lines.append(f"arc {self.pick(len(self.site.blocks))} {frame}")
        if self.happens("foreign"):
            lines.append(f"foreign {self.pick(128) * 2:02X}{self.pick(256):02X}")
        if self.happens("show"):
            lines.append("show")
        return lines

    def turns(self) -> tuple[list[str], bool]:
        """The lines of the controllers that are up, and whether one of them is disturbed."""
        lines = []
        disturbed = False
        for controller in range(len(self.site.blocks)):
            if controller in self.down:
                continue
            for trouble in COMMIT_TROUBLES:
                if self.happens(trouble):
                    lines.append(f"{trouble} {controller}")
                    disturbed = True
            lines.append(f"go {controller}")
        return lines, disturbed

    def flush(self) -> None:
        """The rounds since the last disturbed one, in one line."""
        if self.undisturbed:
            self.lines.append(f"run {self.undisturbed}")
            self.undisturbed = 0

    def add(self, now: int) -> None:
        before = self.before(now)
        turns, disturbed = self.turns()
        bus = self.turn_of_the_bus()
        if before:
            self.flush()
            self.lines += before
        if disturbed or bus != "pump" or self.site.spell:
            self.flush()
            self.lines += [*turns, bus]
        else:
            self.undisturbed += 1

    def all(self) -> list[str]:
        """All rounds, after which everybody comes back."""
        if self.site.survey:
            self.lines += [f"survey {controller}" for controller in range(len(self.site.blocks))]
        for now in range(self.site.rounds):
            self.add(now)
        self.flush()
        return self.lines + self.who_comes_back(self.site.rounds + LONGEST_ABSENCE + 1)


def used_lines(site: Site, numbers: list[int]) -> list[str]:
    """A line for each used gear, in order of their number: with short addresses that are all different, and numbers
    that are too, and that nobody draws."""
    number = random.Random(f"used {site.seed}")
    places = sorted(number.sample(range(site.gear), site.used))
    shorts = number.sample(range(script_forms.LAST_ADDRESS + 1), site.used)
    drawn = set(numbers)
    randoms = [one for one in number.sample(range(script_forms.NO_RANDOM), site.used + len(numbers)) if one not in drawn]
    return list(map(script_forms.used_line, places, shorts, randoms))


def once_more(site: Site) -> list[str]:
    """The lines of the restarts: one controller after the other comes up with what it kept, and runs until it has ended.
    All others have ended before, so it is alone."""
    lines = []
    for controller in [*range(len(site.blocks))] * site.again:
        lines += [f"down {controller}", f"up {controller}"]
        if site.survey:
            lines.append(f"survey {controller}")
        lines.append(f"run {LAST_RUN}")
    return [*lines, "show"] if lines else []


def script_of(site: Site) -> str:
    """The whole script, with a last run that nothing disturbs, and the restarts after it."""
    numbers = random.Random(f"draws {site.seed}").sample(range(script_forms.NO_RANDOM), site.draws)
    lines = [*used_lines(site, numbers), *Rounds(site).all(), f"run {LAST_RUN}", "show", *once_more(site)]
    return script_forms.site_of(site.gear, site.blocks, numbers, lines)
