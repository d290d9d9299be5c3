"""Makes chosen system calls of a program fail. The program runs under a seccomp filter, and each of its syncs, reads, writes, cuts and openings of
files asks this process first, which lets it go on or answers it with an error. That needs Linux 5.5 or later on x86-64, and no tool; the
program may be linked statically.

    calls = FailingCalls()
    Server(program, room, before=calls.words)    # or subprocess.run([*calls.words, program, ..])
    calls.fail(SYNCS, first=2)                   # from now on the second sync fails with EIO, once
    calls.kill(WRITES, first=3)                  # from now on the program is killed before its third write
    calls.pass_all()

Started as a program, it sets the filter, hands its listener over, and becomes the program that its further words name."""
import array, ctypes, errno, fcntl, os, select, signal, socket, struct, sys, threading

NUMBERS = {"pread64": 17, "pwrite64": 18, "fsync": 74, "fdatasync": 75, "ftruncate": 77, "openat": 257}
NAMES = {number: name for name, number in NUMBERS.items()}
SYNCS, READS, WRITES, OPENINGS = ("fsync", "fdatasync"), ("pread64",), ("pwrite64", "ftruncate"), ("openat",)
WAIT = 60  # seconds, until the program has handed its listener over

# Of linux/seccomp.h, linux/filter.h and linux/audit.h.
SECCOMP, SET_MODE_FILTER, NEW_LISTENER, NO_NEW_PRIVS = 317, 1, 8, 38
ALLOW, NOTIFY, X86_64 = 0x7FFF0000, 0x7FC00000, 0xC000003E
LOAD, EQUAL, RETURN = 0x20, 0x15, 0x06
RECEIVE, SEND, GO_ON = 0xC0502100, 0xC0182101, 1
ASKED, ANSWER = struct.Struct("QIIiIQ6Q"), struct.Struct("QqiI")


def filter_of(numbers):
    """The filter: these calls are asked for, all others go on."""
    last = len(numbers)
    lines = [(LOAD, 0, 0, 4), (EQUAL, 0, last + 1, X86_64), (LOAD, 0, 0, 0)]
    lines += [(EQUAL, last - place, 0, number) for place, number in enumerate(numbers)]
    lines += [(RETURN, 0, 0, ALLOW), (RETURN, 0, 0, NOTIFY)]
    return b"".join(struct.pack("HBBI", *line) for line in lines), len(lines)


def set_filter():
    """Sets the filter for this process and what it becomes, and gives the listener."""
    libc = ctypes.CDLL(None, use_errno=True)
    code, count = filter_of(list(NUMBERS.values()))
    text = ctypes.create_string_buffer(code)
    program = ctypes.create_string_buffer(struct.pack("HxxxxxxQ", count, ctypes.addressof(text)))
    libc.prctl(NO_NEW_PRIVS, 1, 0, 0, 0)
    listener = libc.syscall(SECCOMP, SET_MODE_FILTER, NEW_LISTENER, program)
    if listener < 0:
        raise OSError(ctypes.get_errno(), "seccomp")
    return listener


class FailingCalls:
    """The calls of one program at a time. Where several fail, they are those from the first to the last that are counted from `fail` on."""

    def __init__(self):
        self.lock, self.ready = threading.Lock(), threading.Semaphore(0)
        self.names, self.first, self.last, self.error, self.file, self.counted, self.failed = (), 0, 0, 0, "", 0, []
        self.meeting = socket.socket(socket.AF_UNIX, socket.SOCK_STREAM)
        self.meeting.bind("\0rothkeap-%d-%d" % (os.getpid(), id(self)))
        self.meeting.listen()
        self.words = [sys.executable, os.path.abspath(__file__), self.meeting.getsockname()[1:].decode()]
        threading.Thread(target=self.serve_programs, daemon=True).start()

    def fail(self, names, first=1, count=1, error=errno.EIO, file=""):
        """From now on the calls of these names on files whose path contains this are counted, and so many from the first on fail."""
        with self.lock:
            self.names, self.first, self.last, self.error, self.file = names, first, first + count - 1, error, file
            self.counted, self.failed = 0, []

    def kill(self, names, first, file=""):
        """The program is killed instead, before that call."""
        self.fail(names, first, error=None, file=file)

    def pass_all(self):
        """From now on each call goes on. The names of the calls that failed, with their files."""
        with self.lock:
            self.names = ()
            return self.failed

    def serve_programs(self):
        while True:
            try:
                taken, _ = self.meeting.accept()
            except OSError:
                return
            with taken:
                _, sent, _, _ = taken.recvmsg(1, socket.CMSG_SPACE(4))
            if sent:
                listener = array.array("i", sent[0][2])[0]
                threading.Thread(target=self.answer_all, args=(listener,), daemon=True).start()

    def answer_all(self, listener):
        poll = select.poll()
        poll.register(listener, select.POLLIN)
        try:
            while True:
                if not poll.poll()[0][1] & select.POLLIN:
                    return
                asked = bytearray(ASKED.size)
                try:
                    fcntl.ioctl(listener, RECEIVE, asked)
                    ticket, process, _, number, _, _, *words = ASKED.unpack(asked)
                    error = self.error_of(NAMES[number], process, words)
                    answer = ANSWER.pack(ticket, 0, -error, 0) if error else ANSWER.pack(ticket, 0, 0, GO_ON)
                    fcntl.ioctl(listener, SEND, answer)
                except OSError as fault:
                    if fault.errno not in (errno.ENOENT, errno.EINTR):  # the thread that asked has ended
                        return
        finally:
            os.close(listener)

    def error_of(self, name, process, words):
        """The error that this call is answered with, or 0."""
        with self.lock:
            if name not in self.names:
                return 0
            file = file_of(name, process, words)
            if self.file not in file:
                return 0
            self.counted += 1
            if not self.first <= self.counted <= self.last:
                return 0
            self.failed.append(f"{name} of {os.path.basename(file)}")
            if self.error is None:
                os.kill(process, signal.SIGKILL)
            return self.error or errno.EIO


def file_of(name, process, words):
    """The path of the file that a call is about."""
    try:
        if name != "openat":
            return os.readlink(f"/proc/{process}/fd/{words[0]}")
        with open(f"/proc/{process}/mem", "rb", buffering=0) as memory:
            memory.seek(words[1])
            return memory.read(4096 - words[1] % 4096).split(b"\0")[0].decode(errors="replace")
    except OSError:
        return ""


def lacks():
    """Why calls cannot be made to fail here, or nothing."""
    if sys.platform != "linux" or os.uname().machine != "x86_64":
        return "this is not Linux on x86-64"
    child = os.fork()
    if child == 0:
        try:
            set_filter()
            os._exit(0)
        except OSError as fault:
            os._exit(fault.errno % 128 or 1)
    status = os.waitstatus_to_exitcode(os.waitpid(child, 0)[1])
    return f"the kernel refuses a filter of system calls: {os.strerror(status)}" if status else ""


def main():
    name, program = sys.argv[1], sys.argv[2:]
    with socket.socket(socket.AF_UNIX, socket.SOCK_STREAM) as meeting:
        meeting.connect("\0" + name)
        meeting.sendmsg([b"x"], [(socket.SOL_SOCKET, socket.SCM_RIGHTS, array.array("i", [set_filter()]))])
    os.execv(program[0], program)


if __name__ == "__main__":
    main()
