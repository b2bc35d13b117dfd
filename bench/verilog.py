"""Against sha256sum, by the processor time that both take: what else runs on the machine counts less."""
import resource
import subprocess
import sys
from fastest import printed

program, path = sys.argv[1:]
TIMES = 9


def processor_time(command):
    """User time alone, and with the system's, of one run."""
    before = resource.getrusage(resource.RUSAGE_CHILDREN)
    subprocess.run(command, check=True, stdout=subprocess.DEVNULL)
    after = resource.getrusage(resource.RUSAGE_CHILDREN)
    user = after.ru_utime - before.ru_utime
    return user, user + after.ru_stime - before.ru_stime


def least(commands):
    """The least times of each command, which take turns."""
    results = [[processor_time(command) for command in commands] for _ in range(TIMES)]
    return [[min(run[i][kind] for run in results) for kind in range(2)] for i in range(len(commands))]


print(printed([program, path]))
sha, read = least([["sha256sum", path], [program, path]])
print(f"user time: sha256sum {sha[0]:.3f} s, reading {read[0]:.3f} s, ratio {sha[0] / read[0]:.2f}")
print(f"user and system time: sha256sum {sha[1]:.3f} s, reading {read[1]:.3f} s, ratio {sha[1] / read[1]:.2f}")
