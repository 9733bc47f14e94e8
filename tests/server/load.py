"""Clients that keep asking, and check each answer. The value of a key follows from the key, so a value that comes is
right or wrong whichever server it comes from."""
import random
import threading
import time

from talk import Client, store, values

KEYS = [b"load-%d" % i for i in range(400)]


def value_of(key):
    return key * (len(key) * int(key.split(b"-")[1]) % 50 + 1)


class Load:
    def __init__(self, port, clients):
        self.port = port
        self.running = True
        self.faults = []
        self.hits = self.misses = 0
        # When each request ended, and how long it took.
        self.times = []
        self.threads = [threading.Thread(target=self.run, args=(seed,), daemon=True) for seed in range(clients)]
        for thread in self.threads:
            thread.start()

    def run(self, seed):
        choice = random.Random(seed)
        try:
            with Client(self.port) as client:
                while self.running:
                    self.turn(client, choice)
        except Exception as error:  # Whatever ends a client is a fault.
            self.faults.append(repr(error))

    def turn(self, client, choice):
        keys = choice.sample(KEYS, 5 if choice.random() < 0.1 else 1)
        reply = self.ask(client, b"get " + b" ".join(keys) + b"\r\n")
        there = [key for key in keys if b"VALUE " + key + b" " in reply]
        if reply != values(*((key, value_of(key)) for key in there)):
            self.faults.append(reply)
        self.hits += len(there)
        self.misses += len(keys) - len(there)
        for key in keys:
            if key not in there or choice.random() < 0.2:
                reply = self.ask(client, store(key, value_of(key)))
                if reply != b"STORED\r\n":
                    self.faults.append(reply)

    def ask(self, client, request):
        reply, seconds = client.timed(request)
        self.times.append((time.monotonic(), seconds))
        return reply

    def slowest(self, since=0.0):
        return max(seconds for ended, seconds in list(self.times) if ended >= since)

    def answers(self):
        return len(self.times)

    def stop(self):
        self.running = False
        for thread in self.threads:
            thread.join()
