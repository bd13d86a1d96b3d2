#!/usr/bin/env python3
"""Moves money between accounts in etcd, and logs it for sicheck with versions in place of balances.

Balances repeat, and sicheck wants each value once to a key. But etcd tells with each value the revision that put it, its
mod_revision: once to a key, and a transaction that commits at c writes the version c. So the log has the version that was read in
place of the balance, and c in place of what was written, which is known once it is committed. A balance doesn't tell who wrote it, so
each transaction puts its own id under a key of its client's too, which isn't logged: that key tells later whether a commit happened
whose answer was lost, and as which revision.

With --fault the commit doesn't look whether its accounts were changed: money gets lost or made, and the log shows by whom.
"""
import os
import sys

sys.path.insert(0, os.path.join(os.path.dirname(os.path.abspath(__file__)), ".."))
import trial  # noqa: E402 (it knows where the package is)
import sicheck  # noqa: E402
from gateway import Etcd  # noqa: E402

FIRST = 100  # on each account at first


class Client:
    """A client with its own connection, chance and log."""

    def __init__(self, options, number):
        self.options = options
        self.plan = trial.Plan(options, number)
        self.etcd = Etcd(options.address)
        self.log = sicheck.Log(sys.stdout, client=number)
        self.done = f"done/{number}"
        self.doubtful = []

    def run(self):
        for _ in range(self.options.transactions):
            with self.log.transaction(self.etcd.revision()) as txn:
                if self.plan.happens(0.2):
                    self.look_at_all(txn)
                else:
                    self.move(txn)

    def balance(self, txn, account):
        """What is on the account. The log has the version that was read."""
        balance, version = self.etcd.read(account, txn.start)
        txn.read(account, version)
        return balance

    def look_at_all(self, txn):
        """The sum of all accounts, which stays the same. Where it isn't, the log shows why."""
        total = sum(self.balance(txn, account) for account in accounts(self.options))
        txn.commit()
        if total != FIRST * self.options.keys:
            print(f"transaction {txn.id} sees {total} in all", file=sys.stderr)

    def move(self, txn):
        """Moves a little from one account to another."""
        one, other = self.plan.chance.sample(accounts(self.options), 2)
        amount = self.plan.chance.randint(1, 5)
        puts = {one: self.balance(txn, one) - amount, other: self.balance(txn, other) + amount, self.done: txn.id}
        for account in (one, other):
            txn.write(account, sicheck.VERSION)
        revision = self.etcd.commit(puts, None if self.options.fault else txn.start)
        if self.plan.happens(0.04):
            # The answer is thrown away, as if it had got lost. It is settled when the run is over.
            txn.in_doubt()
            self.doubtful.append(txn)
        elif revision is None:
            txn.abort()
        else:
            txn.commit(revision)

    def settle(self):
        """Finds out what became of the transactions in doubt, by the versions of the client's own key. A request may still be on its
        way; once that key is overwritten its compare fails for good."""
        last = self.etcd.commit({self.done: 0}, None)
        for txn in self.doubtful:
            found, revision = self.etcd.read(self.done, last - 1)
            while revision is not None and revision > txn.start and found != txn.id:
                found, revision = self.etcd.read(self.done, revision - 1)
            if found == txn.id:
                txn.commit(revision)
            else:
                txn.abort()


def accounts(options):
    return [f"account/{place}" for place in range(options.keys)]


def main():
    words = trial.parser(__doc__, transactions=30, keys=8)
    words.add_argument("--address", default="127.0.0.1:2379", help="of etcd's JSON gateway")
    words.add_argument("--fault", action="store_true", help="commit without the compare")
    options = words.parse_args()
    etcd = Etcd(options.address)
    etcd.forget("account/")
    etcd.forget("done/")
    clients = [Client(options, number) for number in range(1, options.clients + 1)]
    for account in accounts(options):
        clients[0].log.set_up(account, etcd.commit({account: FIRST}, None))
    trial.run_all(clients)
    for client in clients:
        client.settle()


main()
