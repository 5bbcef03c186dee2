"""Times commands that take turns, so that what else the machine does weighs on all alike, and counts what they take.

The order of a round is drawn anew, so that no command always comes behind the same one, whose memory is still at hand."""
import ctypes
import os
import random
import re
import shutil
import signal
import statistics
import subprocess
import sys
import time

TOP = os.path.dirname(os.path.dirname(os.path.abspath(__file__)))
PROGRAM = os.path.join(TOP, 'crates', 'save_cli', 'out', 'save_cli')

# checks/make_image.py makes the images.
sys.dont_write_bytecode = True
sys.path.insert(0, os.path.join(TOP, 'checks'))


def build() -> None:
    """Builds the program where it is not built yet."""
    subprocess.run([os.path.join(TOP, 'save'), '--build'], stdout=subprocess.DEVNULL, stderr=subprocess.DEVNULL)


def built(folder: str, name: str, below: list) -> str:
    """A program of this folder, proved and built in a repository of its own, beside copies of the crates that it stands
    on: what they keep in out/ is not proved again."""
    with open(os.path.join(TOP, 'crates.txt')) as file:
        lines = [line for line in file if line.split(':')[0] in below]
    with open(os.path.join(folder, 'crates.txt'), 'w') as file:
        file.writelines(lines + [f'{name}: {" ".join(below)}\n'])
    for crate in below:
        shutil.copytree(os.path.join(TOP, 'crates', crate), os.path.join(folder, 'crates', crate))
    own = os.path.join(folder, 'crates', name)
    shutil.copytree(os.path.join(TOP, 'bench', name), own)
    os.makedirs(os.path.join(own, 'src'))
    # The gate reads each file of Rattle's that no crate has as a mistake, so these bear another ending.
    for place, _, names in os.walk(own):
        for file in names:
            os.rename(os.path.join(place, file), os.path.join(place, file.removesuffix('.txt')))
    os.rename(os.path.join(own, 'main.rt'), os.path.join(own, 'src', 'main.rt'))
    ran = subprocess.run(['rt', 'run'], cwd=own, capture_output=True, text=True)
    if ran.returncode:
        sys.exit(f'bench/{name}: the program was not built\n{ran.stdout}{ran.stderr}')
    return os.path.join(own, 'out', name)


def reads(words: list) -> int:
    """How many read calls a command makes, as the kernel counts them until it is waited for."""
    child = subprocess.Popen(words, stdout=subprocess.DEVNULL)
    os.waitid(os.P_PID, child.pid, os.WEXITED | os.WNOWAIT)
    with open(f'/proc/{child.pid}/io') as counts:
        calls = dict(line.split(': ') for line in counts)
    assert child.wait() == 0
    return int(calls['syscr'])


def traced(request: int, child: int, value: int = 0) -> None:
    ptrace = ctypes.CDLL(None, use_errno=True).ptrace
    ptrace.argtypes = [ctypes.c_long, ctypes.c_long, ctypes.c_void_p, ctypes.c_void_p]
    if ptrace(request, child, None, value) < 0:
        raise OSError(ctypes.get_errno(), 'ptrace')


def peak(words: list) -> int:
    """The most bytes of memory that a command holds at a time. The kernel is asked as the command is about to end: what
    is told of a process that has ended counts this one's memory too, from before the command took its place."""
    trace_me, go_on, set_options, stop_at_exit = 0, 7, 0x4200, 0x40
    child = os.fork()
    if not child:
        os.dup2(os.open(os.devnull, os.O_WRONLY), 1)
        traced(trace_me, 0)
        os.execvp(words[0], words)
    assert os.WIFSTOPPED(os.waitpid(child, 0)[1])
    traced(set_options, child, stop_at_exit)
    most = 0
    while True:
        traced(go_on, child)
        status = os.waitpid(child, 0)[1]
        if not os.WIFSTOPPED(status):
            assert os.WIFEXITED(status) and os.WEXITSTATUS(status) == 0 and most, status
            return most
        assert os.WSTOPSIG(status) == signal.SIGTRAP, status
        with open(f'/proc/{child}/status') as lines:
            most = 1024 * int(re.search(r'^VmHWM:\s+(\d+) kB$', lines.read(), re.M)[1])


def said(words: list) -> str:
    return subprocess.run(words, capture_output=True, check=True).stdout.decode()


def seconds(words: list, status: int = 0) -> float:
    start = time.perf_counter()
    ran = subprocess.run(words, stdout=subprocess.DEVNULL, stderr=subprocess.DEVNULL)
    took = time.perf_counter() - start
    assert ran.returncode == status, (words, ran.returncode)
    return took


def medians(commands: dict, rounds: int, statuses: dict = {}) -> dict:
    """Runs each command so many times, and prints and answers the middle of its times. A status that is not 0 is named."""
    times = {name: [] for name in commands}
    order = random.Random(rounds)
    for _ in range(rounds):
        for name in order.sample(list(commands), len(commands)):
            times[name].append(seconds(commands[name], statuses.get(name, 0)))
    middle = {name: statistics.median(all_of) for name, all_of in times.items()}
    for name, value in middle.items():
        print(f'{name:24} {value * 1e3:7.3f} ms')
    return middle


def ratio(middle: dict, one: str, other: str) -> None:
    print(f'{one + " / " + other:24} {middle[one] / middle[other]:7.2f}')


def ratio_to(middle: dict, one: str, bound: str, value: float) -> None:
    print(f'{one + " / " + bound:24} {middle[one] / value:7.2f}')


def counted(name: str, words: list) -> None:
    """Prints how many read calls a command makes, and how much memory it takes."""
    print(f'{name:24} {reads(words):9,} read calls')
    print(f'{name:24} {peak(words):9,} bytes of memory at most')


def ratio_beyond(middle: dict, one: str, other: str) -> None:
    """The ratio of what two commands take beyond starting a process."""
    own, others = (middle[name] - middle['true'] for name in (one, other))
    print(f'{one} beyond true / {other} beyond true {own / others:7.2f}')
