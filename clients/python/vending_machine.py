#!/usr/bin/env python3
"""Plays the vending machine of the README by the client `obsidian.py`.

  python3 clients/python/vending_machine.py [STORE]

With STORE the machine stands in that file, and the next call goes on with it. `./obsidian` at the top of the repository serves.
"""
import os
import sys

import obsidian

TOP = os.path.dirname(os.path.dirname(os.path.dirname(os.path.abspath(__file__))))
PROGRAM = os.path.join(TOP, "examples", "vending_machine", "vending_machine.obs")


def machine_of(alice):
    """Makes the machine, where alice hasn't one in the store."""
    try:
        alice.see("m")
    except obsidian.Refused as refused:
        if refused.name != "NoHandle":
            raise
        alice.new("Machine", into="m")


def fill(alice):
    """Bakes a candy and puts it into the machine, where that is empty."""
    if alice.see("m")["state"] == "Empty":
        alice.call("m", "bake", into="baked")
        alice.call("m", "restock", obsidian.Ref("baked"))
        # Her handle looks at the candy from then on, and isn't needed.
        alice.disown("baked")


def buy(alice):
    """Buys a candy for a new coin, tells of it, and eats it. Where the machine is empty the coin is thrown away."""
    alice.call("m", "mint", into="coin")
    try:
        number = alice.call("m", "buy", obsidian.Ref("coin"), into="candy")
        print(f"bought candy {number}, which {alice.owner('candy')[1]} owns")
        alice.disown("candy")
    except obsidian.Aborted as aborted:
        print(f"not bought: {aborted.name}, the machine is {aborted.details['state']}: {aborted.advice}")
    alice.disown("coin")


def play(server):
    alice = server.client("alice")
    machine_of(alice)
    fill(alice)
    buy(alice)
    buy(alice)
    print(f"sold so far: {alice.see('m')['fields']['sold']}")


def main(command=(os.path.join(TOP, "obsidian"),), store=None):
    with obsidian.Server(PROGRAM, store, command) as server:
        play(server)


if __name__ == "__main__":
    main(store=sys.argv[1] if len(sys.argv) > 1 else None)
