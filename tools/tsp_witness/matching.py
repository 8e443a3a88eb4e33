"""Which post a datagram was that a daemon took: by its octets, its sender, and what may have caused what."""
from collections import namedtuple

from tsp_witness.journal import TICKETS, Entry, Turn

REPLY_WORDS = 5
# How long a datagram lives, in microseconds: an older post isn't looked for where there is another.
LIFE = 30_000_000


class Post(namedtuple('Post', 'turn act')):
    """A datagram that a daemon posted to a peer."""
    __slots__ = ()


class Matching:
    """The posts of all journals, and for each datagram that was taken the posts that it may have been."""

    def __init__(self, network, journals, doubted=()):
        self.network, self.journals, self.doubted = network, journals, doubted
        self.index, self.choices, self.strange, self.untaken = {}, {}, [], None
        for journal in journals.values():
            for life in journal.lives:
                for turn in life.turns:
                    self.note_posts(turn)
        for journal in journals.values():
            for life in journal.lives:
                for turn in list(life.turns):
                    self.match(turn)

    def lives(self):
        """All lives, host by host."""
        return [life for journal in self.journals.values() for life in journal.lives]

    def key(self, sender, port, to, words):
        """What a post and its take have in common."""
        return sender, self.network.ports_of(sender)[port], to, ' '.join(words)

    def note_posts(self, turn):
        """Enters the posts of a turn."""
        node = turn.life.node
        for act in turn.acts:
            if act.words[0] == 'post' and act.words[2] != '-':
                to = self.network.peers[node][int(act.words[2])].node
                self.index.setdefault(self.key(node, act.port, to, act.words[3:]), []).append(Post(turn, act))

    def sender(self, turn):
        """The node from which a turn's datagram came, and the port of that node; None where it is a stranger or nothing was taken."""
        act = turn.took()
        if act is None or act.words[1] == '-':
            return None
        node = turn.life.node
        sender = self.network.peers[node][int(act.words[1])].node
        net = self.network.ports_of(node)[act.port]
        ports = self.network.ports_of(sender)
        return (sender, ports.index(net)) if net in ports else None

    def candidates(self, turn):
        """The posts that a turn's datagram may have been."""
        sender = self.sender(turn)
        return self.index.get(self.key(*sender, turn.life.node, turn.took().words[2:]), []) if sender else []

    def match(self, turn):
        """Notes which posts a turn's datagram may have been; one that nobody posted is strange."""
        if self.sender(turn) is None:
            return
        if turn in self.doubted:
            turn.post = None
            self.strange.append(turn)
            return
        found = self.candidates(turn) or self.unwritten_reply(turn)
        if len(found) == 1:
            turn.post = found[0]
        elif found:
            self.choices[turn] = found
        else:
            self.strange.append(turn)

    def unwritten_reply(self, turn):
        """A reply that its sender posted before it traced: the reading tells when that was."""
        words = turn.took().words[2:]
        sender, port = self.sender(turn)
        if words[0] != 'reply' or sender not in self.journals:
            return []
        ticket, word, counter, reading = (int(text) for text in words[1:REPLY_WORDS])
        for life in self.journals[sender].lives:
            tick = -1 if life.base is None else reading - life.base
            asked = self.index.get(self.key(turn.life.node, turn.took().port, sender, ['request', str(word), str(counter)]), [])
            if 0 <= tick <= life.first_tick and ticket == life.base % TICKETS and life.first_post and asked:
                return self.answer(life, tick, port, turn, words, asked[0])
        return []

    def answer(self, life, tick, port, taker, words, request):
        """The turn in which a daemon that didn't trace yet took a request, and its reply."""
        peer = str(self.network.known_as[life.node][taker.life.node, port])
        turn = Turn(life, 0, tick)
        turn.acts = [Entry(port, ['took', peer, *request.act.words[3:]], False), Entry(port, ['post', '0', peer, *words], False)]
        turn.post = request
        before = sum(other.number == 0 and other.tick <= tick for other in life.turns)
        life.turns.insert(before, turn)
        self.note_posts(turn)
        return self.candidates(taker)

    def nearest(self, turn):
        """The message line of a post that a strange datagram may have been before it was changed: one of its type and number that nobody
        took; or None."""
        if self.untaken is None:
            self.untaken = self.found_untaken()
        sender, port = self.sender(turn)
        return self.untaken.get((*self.key(sender, port, turn.life.node, [])[:3], *turn.took().words[2:4]))

    def found_untaken(self):
        """The first message line that nobody took of each sender, network, addressee, type and number."""
        found = {}
        taken = {id(turn.post.act) for life in self.lives() for turn in life.turns if turn.post}
        taken |= {id(post.act) for posts in self.choices.values() for post in posts}
        for key, posts in self.index.items():
            if not any(id(post.act) in taken for post in posts):
                found.setdefault((*key[:3], *key[3].split(' ')[:2]), key[3])
        return found

    def choose(self, at, freedom):
        """Settles what is still open, by the times so far."""
        # (the times of posts, which many datagrams may have in common)
        known = {}
        for turn, posts in self.choices.items():
            here, spare = at(turn), freedom(posts[0].turn.life, turn.life)
            if id(posts) not in known:
                known[id(posts)] = [at(post.turn) for post in posts]
            times = known[id(posts)]
            before = [place for place, time in enumerate(times) if time <= here]
            # (times may be wrong by so much as two hosts leave free: the post that seems to come right behind may be the one)
            behind = [place for place, time in enumerate(times) if here < time <= here + spare]
            last = max(before, key=times.__getitem__, default=None)
            is_old = last is None or here - times[last] > LIFE
            turn.post = posts[min(behind, key=times.__getitem__) if is_old and behind else last or 0]
