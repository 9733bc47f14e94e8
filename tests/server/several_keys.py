"""What the tests share of a `get` of which several keys are under way at once: keys and their values, a server that
keeps its answers, and the proxy over such servers. A number of 1 is the program's default, and no option is given."""
import collections
import itertools
import random
import time

from fakes import key_of
from parts import MODE, ServerTest, configuration
from ports import wait_until
from talk import fnv1a

NO_SERVER = b"SERVER_ERROR no server\r\n"
BUSY = b"SERVER_ERROR busy\r\n"
WHY = "there several keys may be under way"
CAS = 7
# How many keys are under way at once; few `get` of the tests have as many as the last.
NUMBERS = [1, 2, 3, 256] if MODE == "events" else [1]
# Each of these alone, and those that are more than one in one `get` for each server.
GROUPED = {"group_keys": True}
WAYS = [(number, {}) for number in NUMBERS] + [(number, GROUPED) for number in NUMBERS if number > 1]
# How long a test waits for what comes at once on an idle machine, and how long nothing may come after it.
SLACK, QUIET = 10, 0.3


def get(*keys, word=b"get"):
    return word + b" " + b" ".join(keys) + b"\r\n"


def values_of(word, *pairs):
    """The reply to `get`, or to `gets`, with these keys and values."""
    more = b" %d" % CAS if word == b"gets" else b""
    lines = [b"VALUE %s 0 %d%s\r\n%s\r\n" % (key, len(value), more, value) for key, value in pairs]
    return b"".join(lines) + b"END\r\n"


def value_of(key):
    return b"the value of " + key


def found(_, request):
    """Each key has its value."""
    word, *keys = request.split()
    return values_of(word, *((key, value_of(key)) for key in keys))


def keys_on(place, servers, count, name=b"key"):
    """So many keys that the server of this place, of so many in a pool, is asked for."""
    numbered = (b"%s-%d" % (name, number) for number in itertools.count())
    return list(itertools.islice((key for key in numbered if fnv1a(key) % servers == place), count))


class Held:
    """A server that keeps its answers until it is told to give them, in the order in which it was asked."""

    def __init__(self, answer=found):
        self.answer = answer
        self.waiting = collections.deque()
        # The most requests that have waited at once.
        self.most = 0

    def behave(self, connection, request):
        if request == b"version\r\n":
            return b"VERSION 1\r\n"
        self.waiting.append((connection, request))
        self.most = max(self.most, len(self.waiting))
        return None

    def keys(self):
        return [key_of(request) for _, request in list(self.waiting)]

    def give(self, count=1):
        for _ in range(count):
            connection, request = self.waiting.popleft()
            connection.sendall(self.answer(connection, request))


class KeysAtOnce(ServerTest):
    def over(self, number, *pools, **options):
        """A proxy with so many keys at once whose pools are these, and one worker unless a test says otherwise."""
        if number > 1:
            options = {"keys_at_once": number, **options}
        named = {f"pool{place}": pool for place, pool in enumerate(pools)}
        return self.proxy(configuration(**named), **{"threads": 1, **options})

    def grouped(self, number, *pools, **options):
        """The same, where keys that go to one server go out as one `get`."""
        return self.over(number, *pools, **GROUPED, **options)

    def held(self, answer=found):
        """A server that keeps its answers, and what it keeps."""
        keeps = Held(answer)
        return self.fake(keeps.behave), keeps

    def many_clients_get_their_own_values(self, proxy, names, seed):
        """Over the same few connections, with keys that the clients have in common, and that some name twice."""
        choice = random.Random(seed)
        clients = [self.client(proxy.port) for _ in range(40)]
        for _ in range(10):
            asked = [choice.choices(names, k=choice.choice([2, 7, 30])) for _ in clients]
            for client, keys in zip(clients, asked):
                client.send(get(*keys))
            for client, keys in zip(clients, asked):
                self.assertEqual(client.reply(), values_of(b"get", *((key, value_of(key)) for key in keys)))
        self.assertEqual(set(proxy.marks().values()), {"up:0"})

    def are_waiting(self, count, *held):
        """So many requests have come to these servers together, and then no more come."""
        def number():
            return sum(len(each.waiting) for each in held)
        wait_until(lambda: number() >= count, SLACK, f"{count} requests are under way")
        time.sleep(QUIET)
        self.assertEqual(number(), count)


class Rows(KeysAtOnce):
    """What a `get` of keys is answered each of which is of a kind: it has a value, has none, or is on a server that
    gives an error or is down."""
    KINDS = ("value", "missing", "error", "down")

    def have(self, **keys):
        """There are these keys, by their kind: as many of each kind as a row has places."""
        self.keys = keys
        self.kinds = {key: kind for kind, named in keys.items() for key in named}

    def values_there(self, _, request):
        """What a server answers that has the values."""
        word, *keys = request.split()
        return values_of(word, *((key, value_of(key)) for key in keys if self.kinds[key] == "value"))

    def expected(self, word, keys):
        """The values of all keys, or the whole reply to the first one that has no list of values."""
        for key in keys:
            if self.kinds[key] in ("error", "down"):
                return BUSY if self.kinds[key] == "error" else NO_SERVER
        return values_of(word, *((key, value_of(key)) for key in keys if self.kinds[key] == "value"))

    def rows_of_three(self):
        """Each kind at each place of three keys."""
        kinds = itertools.product(self.KINDS, repeat=3)
        return [[self.keys[kind][place] for place, kind in enumerate(row)] for row in kinds]

    def rows_with_a_key_twice(self):
        rows = []
        for kind, other in itertools.product(self.KINDS, repeat=2):
            twice, once = self.keys[kind][0], self.keys[other][1]
            rows += [[twice, twice], [twice, twice, once], [twice, once, twice], [once, twice, twice],
                     [twice, twice, twice]]
        return rows

    def rows_of_one(self):
        return [[keys[0]] for keys in self.keys.values()]

    def each_row(self, proxy, rows, **way):
        """Is answered as it is to be, by one client. Nothing is left that its next request could take for its own."""
        with proxy.client() as client:
            for word, keys in itertools.product((b"get", b"gets"), rows):
                with self.subTest(word=word, kinds=[self.kinds[key] for key in keys], **way):
                    self.assertEqual(client.ask(get(*keys, word=word)), self.expected(word, keys))
            self.assertEqual(client.ask(b"version\r\n"), b"VERSION tkoproxy 1\r\n")
