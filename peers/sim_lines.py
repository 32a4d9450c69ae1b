#!/usr/bin/env python3
"""Writes the request file of the made-up roll-out of a seed, or the line that tells what it comes to, from the words of
docs/FORMATS.md, and knows nothing of the program's code.

    peers/sim_lines.py SEED
    peers/sim_lines.py --summary SEED
"""
import sys

KINDS = ["firmware", "module", "kexec-image", "kexec-initramfs", "policy", "x509"]


class Generator:
    """A linear congruential generator of 64 bits whose upper 31 bits are drawn."""

    def __init__(self, seed):
        self.state = seed

    def below(self, limit):
        self.state = (self.state * 6364136223846793005 + 1442695040888963407) % 2**64
        return self.state // 2**33 % limit


def texts():
    for i in range(16):
        yield f"text t{i} 4"
        yield f"policy_name=p{i % 4} policy_version=1.{i // 4}.0"
        yield "DEFAULT action=ALLOW" if i % 3 == 0 else "DEFAULT action=DENY"
        yield "op=EXECUTE boot_verified=TRUE action=ALLOW"
        yield "op=KMODULE boot_verified=FALSE action=DENY"


def command(generator):
    k = generator.below(6)
    i = generator.below(16)
    name = f"p{i % 4}"
    return [
        f"admin write new_policy text t{i}",
        f"admin write policies/{name}/update text t{i}",
        f"admin write policies/{name}/active echo 1",
        f"admin write policies/{name}/delete echo 1",
        f"admin write enforce echo {i % 2}",
        f"admin write success_audit echo {i % 2}",
    ][k]


def hook(generator, worker):
    k = generator.below(5)
    j = generator.below(8)
    c = generator.below(6)
    pid = 1000 + worker
    return [
        f"w{worker} exec {pid} sim /f{j}",
        f"w{worker} mmap {pid} sim {5 if c % 2 == 0 else 1} /f{j}",
        f"w{worker} mprotect {pid} sim 0 4 -",
        f"w{worker} read {pid} sim {KINDS[c]} /f{j}",
        f"w{worker} load {pid} sim {KINDS[c]}",
    ][k]


def lines(seed):
    generator = Generator(seed)
    yield "ipe-requests 1"
    yield "workers 8"
    yield from texts()
    for j in range(8):
        yield f"file /f{j} boot rootfs {100 + j} t{j}"
    for i in range(16):
        yield f"mark policy trusted text t{i}"
    for _ in range(10):
        yield "phase"
        for _ in range(30):
            yield command(generator)
        for worker in range(1, 9):
            for _ in range(1000):
                yield hook(generator, worker)
    yield "end"


class Policies:
    """The policies that are loaded, and what the commands of a roll-out do to them."""

    def __init__(self):
        self.versions = {}
        self.active = None
        self.enforce = 1
        self.success_audit = 0
        self.epoch = 0

    def switch(self, name, value):
        if getattr(self, name) != value:
            setattr(self, name, value)
            self.epoch += 1

    def write(self, node, content):
        """Whether the command is done."""
        if node in ("enforce", "success_audit"):
            self.switch(node, int(content))
            return True
        if node == "new_policy":
            name, version = f"p{int(content) % 4}", int(content) // 4
            if name in self.versions:
                return False
            self.versions[name] = version
            return True
        _, name, act = node.split("/")
        if name not in self.versions:
            return False
        if act == "update":
            own, version = f"p{int(content) % 4}", int(content) // 4
            if own != name or version < self.versions[name]:
                return False
            self.versions[name] = version
            self.epoch += self.active == name
        elif act == "active":
            if self.active == name:
                return True
            if self.active is not None and self.versions[name] < self.versions[self.active]:
                return False
            self.active = name
            self.epoch += 1
        else:
            if self.active == name:
                return False
            del self.versions[name]
        return True


def summary(seed):
    policies = Policies()
    hooks = placed = commands = done = 0
    for line in lines(seed):
        words = line.split()
        if words[0] == "admin":
            commands += 1
            done += policies.write(words[2], words[4].removeprefix("t"))
        elif words[0][1:].isdigit() and words[0][0] == "w":
            hooks += 1
            placed += words[1:2] + words[4:5] != ["mmap", "1"]
    active = policies.active
    version = f"1.{policies.versions[active]}.0" if active else "?"
    return (
        f"hooks={hooks} placed={placed} commands={commands} ok={done} epoch={policies.epoch} active={active or '?'} "
        f"version={version} enforce={policies.enforce} success_audit={policies.success_audit}"
    )


def main(words):
    told = words[:1] == ["--summary"]
    seed = words[told:]
    if len(seed) != 1 or not seed[0].isdigit() or int(seed[0]) >= 2**64:
        sys.exit(__doc__)
    if told:
        print(summary(int(seed[0])))
    else:
        sys.stdout.write("".join(f"{line}\n" for line in lines(int(seed[0]))))


if __name__ == "__main__":
    main(sys.argv[1:])
