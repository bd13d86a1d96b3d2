"""What the example clients share: the Python package beside them, their options, and how several run at once."""
import argparse
import random
import sys
import threading
import time
from pathlib import Path

sys.path.insert(0, str(Path(__file__).resolve().parent.parent / "python"))


def parser(description, clients=4, transactions=300, keys=6):
    """The options that each client has."""
    words = argparse.ArgumentParser(description=description, formatter_class=argparse.RawDescriptionHelpFormatter)
    words.add_argument("--clients", type=int, default=clients)
    words.add_argument("--transactions", type=int, default=transactions, help="of each client")
    words.add_argument("--keys", type=int, default=keys)
    words.add_argument("--seed", type=int, default=1)
    return words


class Plan:
    """What one client does, by chance."""

    def __init__(self, options, number):
        self.chance = random.Random(options.seed * 100 + number)
        self.keys = options.keys

    def happens(self, share):
        """Whether something happens that happens in this share of cases."""
        return self.chance.random() < share

    def operations(self, only_reads):
        """Pairs of a key, and whether it is read, with a little time between them, so that several transactions are under way at once."""
        for _ in range(self.chance.randint(2, 4)):
            time.sleep(self.chance.random() * 0.002)
            yield f"k{self.chance.randrange(self.keys)}", only_reads or self.happens(0.5)


def set_up_values(options):
    """Every other key has a value from before the run; the others have none."""
    return [(f"k{place}", place) for place in range(0, options.keys, 2)]


def run_all(clients):
    """Runs the clients, each in a thread of its own. Where one of them ends by an error, so does the program."""
    errors = []

    def run(client):
        try:
            client.run()
        except BaseException as error:
            errors.append(error)
            raise
    threads = [threading.Thread(target=run, args=(client,)) for client in clients]
    for thread in threads:
        thread.start()
    for thread in threads:
        thread.join()
    if errors:
        raise SystemExit(1)


def end_with(forks):
    """Ends the program, once all is logged. Snapshots that contradict each other are a violation which the log alone may not show: each is told
    on standard error, and the status is then that of one."""
    for fork in forks:
        sys.stderr.write(f"{fork}\n")
    sys.exit(20 if forks else 0)
