"""Request files, and transcripts in the forms of docs/FORMATS.md, that are made without the gate.

Hooks that aren't evaluated stand where they are asked here, which isn't where the gate prints them.
"""

HEAD = b"""ipe-requests 1
workers 4
text p 3
policy_name=p policy_version=1.0.0
DEFAULT action=DENY
op=EXECUTE boot_verified=TRUE action=ALLOW
text q 3
policy_name=p policy_version=1.1.0
DEFAULT action=DENY
op=EXECUTE boot_verified=TRUE action=ALLOW
text init 1
hello
file /init boot rootfs 2 init
mark policy trusted text p
mark policy trusted text q
"""
LOAD = ('type=1422 policy_name="p" policy_version={} policy_digest=sha256:' + "0" * 64 +
        " auid=4294967295 ses=4294967295 lsm=ipe res=1 errno=0")
ACTIVE = ("type=1421 old_active_pol_name={} old_active_pol_version={} old_policy_digest={} "
          'new_active_pol_name="p" new_active_pol_version={} new_policy_digest=sha256:' + "0" * 64 +
          " auid=4294967295 ses=4294967295 lsm=ipe res=1")
ACCESS = ('type=1420 ipe_op={} ipe_hook={} enforcing=1 pid=7 comm="{}" path={} dev={} ino={} rule="DEFAULT action=DENY"')


def run(hooks, phases=10, comm="sim"):
    """A run of many hooks: in each phase an update in the midst of the hooks of four workers. Of ten hooks one is denied, one isn't
    evaluated, and one in a hundred meets a corrupt block."""
    lines, answers, epoch = HEAD.decode().splitlines(), ["ipe-transcript 1"], 0

    def ask(line):
        lines.append(line)
        return len(lines)

    serial, count = 0, 0
    for phase in range(phases):
        ask("phase")
        answers.append(f"phase {phase + 1}")
        if phase == 0:
            answers += [f"line={ask('admin write new_policy text p')} admin code=0 epoch=0", LOAD.format("1.0.0"),
                        f"line={ask('admin write policies/p/active echo 1')} admin code=0 epoch=1",
                        ACTIVE.format("?", "?", "?", "1.0.0")]
            epoch, serial, count = 1, 1, 0
        for number in range(hooks // phases):
            if number == hooks // phases // 2:
                place = ask("admin write policies/p/update text q")
                epoch, serial, count = epoch + 1, serial + 1, 0
                answers += [f"line={place} admin code=0 epoch={epoch}", LOAD.format("1.1.0"),
                            ACTIVE.format('"p"', "1.0.0", "sha256:" + "0" * 64, "1.1.0")]
            worker = number % 4 + 1
            if number % 10 == 3:
                place = ask(f"w{worker} mmap 7 {comm} 3 /init")
                answers.append(f"line={place} w{worker} code=0 epoch=- count=- policy=- by=-")
                continue
            if number % 10 == 7:
                place = ask(f"w{worker} load 7 {comm} firmware")
                answers += [f"line={place} w{worker} code=-13 epoch={epoch} count={count} policy={serial} by=global",
                            ACCESS.format("FIRMWARE", "KERNEL_LOAD", comm, "?", "?", "?")]
            else:
                place = ask(f"w{worker} exec 7 {comm} /init")
                answers += [f"line={place} w{worker} code=0 epoch={epoch} count={count} policy={serial} by=rule:1",
                            "content corrupt volume level=0 block=3" if number % 100 == 1 else "content sha256:" + "1" * 64]
            count += 1
    lines.append("end")
    answers.append("end")
    return "".join(f"{line}\n" for line in lines).encode(), "".join(f"{line}\n" for line in answers).encode()
