"""All cases, tried up to three times: what was broken once more, since a network may lose a packet,
and a receiver that ended from where it ended."""

import time
from collections.abc import Callable
from dataclasses import dataclass, field, replace

from cueplayer_tools.conform.hearing import Deaf
from cueplayer_tools.conform.peers import Clock, NetworkFault, Peer, PeerFault
from cueplayer_tools.conform.script import SETTLE, Rule
from cueplayer_tools.conform.trial import REST, Death, Trial
from cueplayer_tools.conform.verdicts import BROKEN, NOT_TRIED, Named, Played, Verdict, judge
from cueplayer_tools.line_protocol import Refused

# A receiver that takes all as of one moment is not asked where time counts.
TIMELESS = 1500
NO_TIME = "it takes all datagrams as of one moment"
ONE_UNIVERSE = "it was tried in one universe: --universes F-L names several"
ONE_ADDRESS = "there is one address to send from: --second names another"
DEAF = "it shows nothing new"
MOST_TRIES = 3
# A receiver that ended so often is not tried any further.
MOST_DEATHS = 5


@dataclass(frozen=True)
class Setting:
    """How a trial is begun: what starts the peer, the clock, how long a receiver may take to show
    what came, in milliseconds, what makes the CIDs of this trial its own, and for how many seconds
    one that ended is waited for. `tells` is told which cases are played now, and how often
    they were, and `warns` what else takes time."""

    start: Callable[[], Peer]
    clock: Clock
    settle: int = SETTLE
    salt: str = ""
    patience: float = 0
    tells: Callable[[Peer, list[Named], int], None] = lambda peer, cases, tries: None
    warns: Callable[[str], None] = lambda text: None


@dataclass
class Tried:
    """What a trial came to: the verdicts, how the receiver ended, whether it was deaf, and all
    that was played, or `cut_off` when the receiver ended. `stopped` says why no more could be
    tried, once the peer `has_begun`."""

    verdicts: list[Verdict] = field(default_factory=list)
    deaths: list[Death] = field(default_factory=list)
    deaf: list[Deaf] = field(default_factory=list)
    played: list[Played] = field(default_factory=list)
    cut_off: list[Played] = field(default_factory=list)
    stopped: str = ""
    has_begun: bool = False


class Round:
    """Plays cases, each once, and goes on where the receiver ended."""

    def __init__(self, setting: Setting, salt: str, tried: Tried) -> None:
        self.setting, self.salt, self.tried = setting, salt, tried
        self.found: dict[tuple[str, str], Verdict] = {}

    def _note(self, verdict: Verdict) -> None:
        self.found[verdict.rule.name, verdict.case.name] = verdict

    def _leave(self, cases: list[Named], about: str) -> None:
        for rule, case in cases:
            self._note(Verdict(rule, case, NOT_TRIED, about=about))

    def _start(self) -> Peer | None:
        """The peer, begun anew; one that ended may take its time."""
        patience = self.setting.patience
        until, is_told = time.monotonic() + patience, False
        while True:
            try:
                peer = self.setting.start()
                self.tried.has_begun = True
                return peer
            except (PeerFault, Refused) as fault:
                if not self.tried.has_begun:
                    raise
                if time.monotonic() >= until:
                    self.tried.stopped = f"it ended, and does not come back: {fault}"
                    return None
                if not is_told:
                    self.setting.warns(f"{fault}; waiting up to {patience:g} s for it")
                    is_told = True
            time.sleep(0.5)

    def play(self, cases: list[Named], tries: int) -> None:
        """Where the peer ends, what may have ended it is played alone, and then the rest."""
        groups = [cases]
        while groups:
            group = groups.pop(0)
            peer = self._start() if group and not self.tried.stopped else None
            if peer is None:
                self._leave(group, self.tried.stopped)
                continue
            able = [each for each in group if self._can(peer, each)]
            self.setting.tells(peer, able, tries)
            trial = Trial(peer, self.setting.clock, self.setting.settle, self.salt)
            groups = self._after(trial, self._played(trial, able), able) + groups

    def _can(self, peer: Peer, named: Named) -> bool:
        """Whether the peer can be tried so."""
        rule, case = named
        lacks = ""
        if case.is_wide and len(peer.pair) < 2:
            lacks = ONE_UNIVERSE
        elif case.moves and not peer.moves:
            lacks = ONE_ADDRESS
        elif not peer.keeps_time and case.lasts() > TIMELESS:
            lacks = NO_TIME
        if lacks:
            self._leave([named], lacks)
        return not lacks

    def _played(self, trial: Trial, cases: list[Named]) -> Death | None:
        try:
            death = trial.play(cases)
        except (NetworkFault, Refused) as fault:
            if not self.tried.played and not trial.played:
                raise Refused(str(fault)) from fault
            self.tried.stopped, death = str(fault), None
        self.tried.played += trial.played
        self.tried.cut_off += trial.cut_off
        for each in trial.played:
            self._note(judge(each, self.setting.settle))
        for deaf in trial.deaf:
            self._leave(list(deaf.cases), DEAF)
        if trial.deaf:
            self.tried.deaf = self.tried.deaf or trial.deaf
        return death

    def _after(self, trial: Trial, death: Death | None, cases: list[Named]) -> list[list[Named]]:
        """What is to be played behind a trial."""
        done = {(each.rule.name, each.case.name) for each in trial.played}
        left = [each for each in cases if (each[0].name, each[1].name) not in done]
        if death is None:
            gone = {(each[0].name, each[1].name) for deaf in trial.deaf for each in deaf.cases}
            return [[each for each in left if (each[0].name, each[1].name) not in gone]]
        suspects = [each for each in death.cases if each in cases]
        if len(suspects) == 1:
            death = self._narrowed(death, suspects[0])
            self._note(Verdict(*suspects[0], BROKEN, about=death.says))
            self.tried.deaths = [
                each for each in self.tried.deaths if suspects[0] not in each.cases
            ]
        self.tried.deaths.append(death)
        if len(self.tried.deaths) >= MOST_DEATHS:
            self.tried.stopped = f"it ended {MOST_DEATHS} times"
        self._rest()
        alone = [[each] for each in suspects] if len(suspects) > 1 else []
        return [*alone, [each for each in left if each not in suspects]]

    def _narrowed(self, death: Death, named: Named) -> Death:
        """Which of several packets of a case ends the peer, if it comes back and ends again."""
        if len(death.sent) < 2:
            return death
        self._rest()
        peer = self._start()
        if peer is None:
            return death
        salt = self.salt + "/careful"
        trial = Trial(peer, self.setting.clock, self.setting.settle, salt, True)
        again = trial.play([named])
        self.tried.cut_off += trial.cut_off
        return again if again and again.sent else death

    def _rest(self) -> None:
        clock = self.setting.clock
        clock.wait_until(clock.now() + REST)


def try_all(setting: Setting, rules: tuple[Rule, ...]) -> Tried:
    """What all cases came to, in their order. What was broken is tried once more, and so is what
    was late; the last time counts."""
    cases = again = [(rule, case) for rule in rules for case in rule.cases]
    found: dict[tuple[str, str], Verdict] = {}
    tried = Tried()
    for tries in range(1, MOST_TRIES + 1):
        round_ = Round(setting, f"{setting.salt}/{tries}", tried)
        round_.play(again, tries)
        for key, each in round_.found.items():
            # What was broken stays so where it cannot be tried again.
            lacks = each.verdict == NOT_TRIED and each.about in (DEAF, tried.stopped)
            if key not in found or not lacks:
                found[key] = replace(each, tries=tries)
        killed = [named for death in tried.deaths for named in death.cases]
        again = [
            (each.rule, each.case)
            for each in found.values()
            if _is_tried_again(each) and (each.rule, each.case) not in killed
        ]
        if not again or tried.stopped or any(deaf.since is None for deaf in tried.deaf):
            break
    tried.verdicts = [found[rule.name, case.name] for rule, case in cases]
    return tried


def _is_tried_again(verdict: Verdict) -> bool:
    if verdict.verdict == BROKEN:
        return verdict.tries == 1
    lacks = (NO_TIME, ONE_UNIVERSE, ONE_ADDRESS)
    return verdict.verdict == NOT_TRIED and verdict.about not in lacks
