"""The rules of verifiers and executors whose logs can be trimmed, for scripts/log_model.

Replicas execute first and agree afterwards, as in Eve (OSDI 2012). Executors run batches and tell verifiers
the token of each new state. Verifiers agree by Paxos on one decree a place: Commit of a state, or Rollback.
The standing is what a list of decrees comes to. A verifier that trims its log keeps the place where the log
starts, and the standing there. Whoever asks for a trimmed place is told what stands now, by one letter: Stands.

A node is a dataclass. Each rule is a method. It changes the node, adds letters to `letters`, and returns True
if the record is saved before they leave. `variant` is `rules`, or one of the variants of scripts/log_model.
"""
import hashlib
from collections import namedtuple
from dataclasses import dataclass, field
from typing import NamedTuple, Optional

VERIFIER, EXECUTOR, CLIENT = "verifier", "executor", "client"
MOST_TOLD = 3  # decrees in one answer to Ask. The real limit is 16; with 3 more happens in a short play
MOST_MEMBERS = 4  # tentative states in a chain

# What is agreed on
ROLLBACK = "Rollback"
NO_TOKEN = "00"  # the token of the first state
Commit = namedtuple("Commit", "number token")
State = namedtuple("State", "number token")
Standing = namedtuple("Standing", "number token epoch first")  # of the last Commit; the epoch; its first number
FIRST_STATE = State(0, NO_TOKEN)
FIRST_STANDING = Standing(0, NO_TOKEN, 1, 1)

Address = namedtuple("Address", "kind number")
Letter = namedtuple("Letter", "sender receiver body")

# Bodies of letters
Accept = namedtuple("Accept", "view place decree")
Accepted = namedtuple("Accepted", "view place decree")
Decided = namedtuple("Decided", "place decree")
Ask = namedtuple("Ask", "place")
Stands = namedtuple("Stands", "place standing")
Change = namedtuple("Change", "view")
Promise = namedtuple("Promise", "view known accepted")
Token = namedtuple("Token", "epoch number previous token")
Order = namedtuple("Order", "batch")
Need = namedtuple("Need", "number")
Parcel = namedtuple("Parcel", "state")
Reply = namedtuple("Reply", "member")

# What nodes keep
Batch = namedtuple("Batch", "epoch number content")
Work = namedtuple("Work", "batch base ordered")
Member = namedtuple("Member", "state previous epoch")  # a tentative state; the token of the state before it
Proposal = namedtuple("Proposal", "view decree")
VoteKey = namedtuple("VoteKey", "epoch number executor previous")


class VerifierRecord(NamedTuple):
    view: int
    start: int
    start_standing: Standing
    log: tuple
    accepted: Optional[Proposal]

    @property
    def known(self):
        return self.start + len(self.log)


class ExecutorRecord(NamedTuple):
    known: int
    standing: Standing
    committed: State
    chain: tuple

    def states(self):
        return [self.committed, *(member.state for member in self.chain)]


def may_follow(standing, decree):
    return decree == ROLLBACK or decree.number == standing.number + 1


def is_open(standing, key):
    """Whether the vote may still count."""
    return key.epoch >= standing.epoch and key.number > standing.number


def standing_after(standing, decree):
    if decree == ROLLBACK:
        return Standing(standing.number, standing.token, standing.epoch + 1, standing.number + 1)
    return Standing(decree.number, decree.token, standing.epoch, standing.first)


def standing_from(standing, decrees):
    for decree in decrees:
        standing = standing_after(standing, decree)
    return standing


def could_stand(place, standing):
    """Whether so many decrees can come to this. Each of them raises either the number or the epoch by 1."""
    return (
        standing.number + standing.epoch == place + 1
        and standing.epoch >= 1
        and 1 <= standing.first <= standing.number + 1
        and (standing.number != 0 or standing.token == NO_TOKEN)
        and (standing.epoch != 1 or standing.first == 1)
    )


def token_of(base, batch, outcome):
    """The token of a state is a digest of what led to it."""
    return hashlib.sha256(repr((base.token, batch, outcome)).encode()).hexdigest()[:12]


@dataclass
class Node:
    """What verifiers and executors share. Each has its own `kind` and RULES."""

    number: int
    u: int
    variant: str = "rules"
    is_up: bool = True
    jumps: int = 0  # how many Stands it took
    letters: list = field(default_factory=list)

    def __post_init__(self):
        self.record = self.saved()

    def save(self):
        self.record = self.saved()

    def address(self):
        return Address(self.kind, self.number)

    def send(self, receiver, body):
        self.letters.append(Letter(self.address(), receiver, body))

    def send_all(self, kind, body):
        for number in range(2 * self.u + 1):
            self.send(Address(kind, number), body)

    def send_others(self, body):
        """To all other nodes of its kind."""
        for number in range(2 * self.u + 1):
            if number != self.number:
                self.send(Address(self.kind, number), body)

    def receive(self, sender, body):
        """A letter that no rule takes from such a sender changes nothing."""
        rule = self.RULES.get((sender.kind, type(body)))
        return rule(self, sender, body) if rule else False


@dataclass
class Verifier(Node):
    view: int = 0
    start: int = 0  # the place of the last decree that was trimmed
    start_standing: Standing = FIRST_STANDING
    log: list = field(default_factory=list)
    accepted: Optional[Proposal] = None  # for the place after the log
    # What follows is lost at a crash.
    leads: bool = False
    proposed: bool = False
    doubt: bool = False
    promises: dict = field(default_factory=dict)
    tally: dict = field(default_factory=dict)
    votes: dict = field(default_factory=dict)
    kind = VERIFIER

    def __post_init__(self):
        super().__post_init__()
        if self.number == 0:  # it leads view 0, for which it needs no promises
            self.leads = True
            self.promises = {number: Promise(0, 0, None) for number in range(2 * self.u + 1)}

    def saved(self):
        return VerifierRecord(self.view, self.start, self.start_standing, tuple(self.log), self.accepted)

    @property
    def known(self):
        return self.start + len(self.log)

    @property
    def standing(self):
        return standing_from(self.start_standing, self.log)

    def enter(self, view):
        self.leads = self.leads and view == self.view
        self.view = view

    def is_next(self, place, decree):
        return place == self.known + 1 and may_follow(self.standing, decree)

    def learn(self, decree):
        self.log.append(decree)
        self.forget()

    def forget(self, variant="rules"):
        """Forgets what was accepted, counted and proposed for a place that it has passed, and closed votes."""
        if variant != "keeps_accepted":
            self.accepted = None
        if variant != "keeps_tally":
            self.tally = {}
        if variant != "keeps_proposed":
            self.proposed = False
        standing = self.standing
        self.votes = {key: token for key, token in self.votes.items() if is_open(standing, key)}

    def propose(self):
        decree = self.proposal()
        if decree is not None:
            self.proposed, self.doubt = True, False
            self.send_all(VERIFIER, Accept(self.view, self.known + 1, decree))

    def proposal(self):
        """What a leader may propose for the next place: what was accepted there, else what the votes say."""
        if not self.leads or self.proposed or len(self.promises) <= self.u:
            return None
        if any(promise.known > self.known for promise in self.promises.values()):
            return None
        return self.accepted_of_highest_view() or self.decree_by_votes()

    def accepted_of_highest_view(self):
        promises = [self.promises[number] for number in sorted(self.promises)]
        found = [promise.accepted for promise in promises if promise.known == self.known and promise.accepted]
        # Of one view this is that of the lowest sender.
        return max(found, key=lambda accepted: accepted.view).decree if found else None

    def decree_by_votes(self):
        """Commit if a token has a quorum; Rollback if none can get one, or in doubt; else None: it waits."""
        standing = self.standing
        heard = 0
        count = {}
        for key, token in self.votes.items():
            if (key.epoch, key.number, key.previous) == (standing.epoch, standing.number + 1, standing.token):
                heard += 1
                count[token] = count.get(token, 0) + 1
        most = max(count.values(), default=0)
        if most > self.u:
            return Commit(standing.number + 1, max(count, key=count.get))
        silent = 2 * self.u + 1 - heard
        return ROLLBACK if most + silent <= self.u or self.doubt else None

    def tell(self, receiver, place, most):
        """Tells at most so many decrees from this place on. If the place is trimmed, tells what stands now."""
        if place <= self.start:
            self.send(receiver, Stands(self.known, self.standing))
            return
        for told in range(place, min(place + most, self.known + 1)):
            self.send(receiver, Decided(told, self.log[told - self.start - 1]))

    def on_token(self, sender, body):
        key = VoteKey(body.epoch, body.number, sender.number, body.previous)
        if is_open(self.standing, key):
            self.votes.setdefault(key, body.token)
            self.propose()

    def on_suspect(self):
        self.view += 1
        while self.view % (2 * self.u + 1) != self.number:
            self.view += 1
        self.leads, self.proposed, self.doubt, self.promises = True, False, True, {}
        self.send_all(VERIFIER, Change(self.view))
        return True

    def on_change(self, sender, body):
        if body.view < self.view:
            return False
        saves = body.view > self.view
        self.enter(body.view)
        self.send(sender, Promise(body.view, self.known, self.accepted))
        return saves

    def on_promise(self, sender, body):
        if self.leads and body.view == self.view and sender.number not in self.promises:
            self.promises[sender.number] = body
            if body.known > self.known:
                self.send(sender, Ask(self.known + 1))
            self.propose()

    def on_accept(self, sender, body):
        if body.place == 0 or body.view < self.view:
            return False
        if body.place > self.known + 1:
            self.send(sender, Ask(self.known + 1))
        elif body.place <= self.known:
            self.tell(sender, body.place, 1)
        elif may_follow(self.standing, body.decree):
            self.enter(body.view)
            self.accepted = Proposal(body.view, body.decree)
            self.send_all(VERIFIER, Accepted(body.view, body.place, body.decree))
            return True
        return False

    def on_accepted(self, sender, body):
        if not self.is_next(body.place, body.decree):
            return False
        self.tally.setdefault((sender.number, body.view), body.decree)
        counted = [decree for (_, view), decree in self.tally.items() if view == body.view]
        if counted.count(body.decree) <= self.u:
            return False
        self.learn(body.decree)
        self.send_others(Decided(body.place, body.decree))
        self.send_all(EXECUTOR, Decided(body.place, body.decree))
        self.propose()
        return True

    def on_decided(self, sender, body):
        if self.is_next(body.place, body.decree):
            self.learn(body.decree)
            self.propose()
            return True
        if body.place > self.known + 1:
            self.send(sender, Ask(self.known + 1))
        return False

    def on_ask(self, sender, body):
        if body.place >= 1:
            self.tell(sender, body.place, MOST_TOLD)

    def on_trim(self, place):
        most = self.known + (1 if self.variant == "trims_above_known" else 0)
        if not self.start < place <= most:
            return False
        count = place - self.start
        trimmed = self.log[: count - 1 if self.variant == "standing_before" else count]
        self.start, self.start_standing = place, standing_from(self.start_standing, trimmed)
        self.log = self.log[count:]
        return self.variant != "trim_unsaved"

    def on_stands(self, sender, body):
        goes_back = self.variant == "goes_back" and body.place < self.known
        is_news = body.place > self.known or goes_back
        if not is_news or not could_stand(body.place, body.standing):
            return False
        self.jumps += 1
        self.start, self.start_standing, self.log = body.place, body.standing, []
        self.forget(self.variant)
        self.propose()
        return self.variant != "stands_unsaved"

    def restart(self):
        """It goes on from its record."""
        self.view, self.start, self.start_standing, log, self.accepted = self.record
        self.log = list(log)
        self.leads = self.proposed = self.doubt = False
        self.promises, self.tally, self.votes = {}, {}, {}
        self.send_others(Ask(self.known + 1))

    RULES = {
        (EXECUTOR, Token): on_token,
        (EXECUTOR, Ask): on_ask,
        (VERIFIER, Ask): on_ask,
        (VERIFIER, Accept): on_accept,
        (VERIFIER, Accepted): on_accepted,
        (VERIFIER, Decided): on_decided,
        (VERIFIER, Change): on_change,
        (VERIFIER, Promise): on_promise,
        (VERIFIER, Stands): on_stands,
    }


@dataclass
class Executor(Node):
    known: int = 0  # how many decrees it has obeyed
    standing: Standing = FIRST_STANDING
    committed: State = FIRST_STATE
    chain: list = field(default_factory=list)  # tentative states over the committed one
    work: Optional[Work] = None  # the batch that it executes; lost at a crash
    kind = EXECUTOR

    def saved(self):
        return ExecutorRecord(self.known, self.standing, self.committed, tuple(self.chain))

    def tip(self):
        return self.chain[-1].state if self.chain else self.committed

    def is_behind(self):
        return self.committed.number < self.standing.number

    def may_begin(self):
        return not self.is_behind() and self.work is None and len(self.chain) < MOST_MEMBERS

    def is_primary(self):
        return (self.standing.epoch - 1) % (2 * self.u + 1) == self.number

    def begin(self, batch):
        """After a Rollback the first batch runs in order, so that it has one outcome on all executors."""
        ordered = self.standing.epoch > 1 and batch.number == self.standing.first
        self.work = Work(batch, self.tip(), ordered)

    def tell(self, member):
        body = Token(member.epoch, member.state.number, member.previous, member.state.token)
        self.send_all(VERIFIER, body)

    def need(self):
        if self.is_behind():
            self.send_others(Need(self.committed.number))

    def commit(self, count):
        """Commits the first members of the chain, and replies to their requests."""
        for member in self.chain[:count]:
            self.committed = member.state
            self.send(Address(CLIENT, 1), Reply(member))
        self.chain = self.chain[count:]

    def undo(self):
        self.chain, self.work = [], None
        self.need()

    def cut(self, content):
        """The content is drawn, since a primary that restarts may cut another batch with the same number."""
        if self.is_primary() and self.may_begin():
            batch = Batch(self.standing.epoch, self.tip().number + 1, content)
            self.send_others(Order(batch))
            self.begin(batch)

    def finish(self, outcome):
        """Completes the work. The outcome depends on the order of steps, which executors choose for themselves."""
        if self.work is None:
            return False
        batch, base, ordered = self.work
        token = token_of(base, batch, 0 if ordered else outcome)
        member = Member(State(batch.number, token), base.token, batch.epoch)
        self.chain.append(member)
        self.work = None
        self.tell(member)
        return True

    def on_order(self, sender, body):
        batch = body.batch
        if batch.epoch == self.standing.epoch and batch.number == self.tip().number + 1 and self.may_begin():
            self.begin(batch)

    def on_decided(self, sender, body):
        if body.place > self.known + 1:
            self.send(sender, Ask(self.known + 1))
        if body.place != self.known + 1 or not may_follow(self.standing, body.decree):
            return False
        self.known += 1
        self.standing = standing_after(self.standing, body.decree)
        if self.chain and body.decree == Commit(*self.chain[0].state):
            self.commit(1)
        else:
            self.undo()
        return True

    def on_stands(self, sender, body):
        if body.place <= self.known or not could_stand(body.place, body.standing):
            return False
        self.jumps += 1
        same_epoch = body.standing.epoch == self.standing.epoch
        self.known, self.standing = body.place, body.standing
        count = self.members_up_to_standing()
        if count is None or self.variant == "undoes":
            self.undo()
            return True
        self.commit(count)
        if not same_epoch and self.variant != "keeps_members":
            self.chain = []
        if not same_epoch and self.variant != "keeps_work":
            self.work = None
        return True

    def members_up_to_standing(self):
        """How many members lead to the state that stands; None if neither they nor the committed state do."""
        for count, state in enumerate(self.saved().states()):
            same_token = state.token == self.standing.token or self.variant == "matches_by_number"
            if state.number == self.standing.number and same_token:
                return count
        return None

    def on_need(self, sender, body):
        if body.number < self.committed.number:
            self.send(sender, Parcel(self.committed))

    def on_parcel(self, sender, body):
        if not self.is_behind() or body.state != State(self.standing.number, self.standing.token):
            return False
        self.committed, self.chain = body.state, []
        return True

    def restart(self):
        """It goes on from its record."""
        self.known, self.standing, self.committed, chain = self.record
        self.chain, self.work = list(chain), None
        for member in self.chain:
            self.tell(member)
        self.send_all(VERIFIER, Ask(self.known + 1))
        self.need()

    RULES = {
        (EXECUTOR, Order): on_order,
        (EXECUTOR, Need): on_need,
        (EXECUTOR, Parcel): on_parcel,
        (VERIFIER, Decided): on_decided,
        (VERIFIER, Stands): on_stands,
    }
