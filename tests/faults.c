/*
 * Runs the window program where reading or writing fails, waits or is cut short, and looks at what it left: on standard
 * output as much of the right text as there can be, on standard error nothing or one line, and how it ended.
 */
#define _DEFAULT_SOURCE /* beyond C99: processes, their limits and their signals, sockets */

#include <fcntl.h>
#include <signal.h>
#include <stdbool.h>
#include <stdint.h>
#include <stdio.h>
#include <stdlib.h>
#include <string.h>
#include <sys/ioctl.h>
#include <sys/resource.h>
#include <sys/socket.h>
#include <sys/wait.h>
#include <time.h>
#include <unistd.h>

#define COUNT(array) (sizeof(array) / sizeof(array)[0])

enum { MOST_BYTES = 1 << 20, MOST_SECONDS = 15 };

static const char CANNOT_READ[] = "window_program: cannot read standard input";
static const char CANNOT_WRITE[] = "window_program: cannot write standard output";

typedef struct {
    char bytes[MOST_BYTES];
    size_t n;
} text;

static text input, right;
static const char *input_path;
static char **command;

/* Of the run at hand: what it is told apart by, what the program left, and how it ended. */
static size_t place;
static text said, errors;
static int status;

static pid_t program;
static int errors_end;

static void end_with(const char *complaint)
{
    perror(complaint);
    exit(2);
}

static void wait_for(long milliseconds)
{
    const struct timespec time = {milliseconds / 1000, milliseconds % 1000 * 1000000};
    nanosleep(&time, NULL);
}

/* ---- Texts ---- */

/* Takes up to so many bytes of what there is. False at the end, and where it would have to wait but may not. */
static bool take(text *to, int from, size_t most)
{
    size_t room = MOST_BYTES - to->n;
    ssize_t n = read(from, to->bytes + to->n, most < room ? most : room);
    if (n > 0)
        to->n += (size_t)n;
    return n > 0;
}

static void take_all(text *to, int from)
{
    while (take(to, from, MOST_BYTES))
        ;
}

/* Where in the right text the answer of a window begins, by the only letter W in it; or the end, after the last. */
static size_t answer_of(size_t window)
{
    for (size_t i = 0; i < right.n; i++)
        if (right.bytes[i] == 'W' && window-- == 0)
            return i;
    return right.n;
}

static size_t last_line(void)
{
    size_t at = right.n - 1;
    while (at > 0 && right.bytes[at - 1] != '\n')
        at--;
    return at;
}

static bool is_one_line(const text *line, const char *beginning)
{
    size_t n = strlen(beginning);
    return line->n > n && memcmp(line->bytes, beginning, n) == 0 &&
           memchr(line->bytes, '\n', line->n) == line->bytes + line->n - 1;
}

static bool ends_with_a_line(void)
{
    return said.n == 0 || said.bytes[said.n - 1] == '\n';
}

/* ---- Descriptors ---- */

/* The same beyond the standard ones, and not for the program unless it is put in place of one of these. */
static int own(int descriptor)
{
    int moved = fcntl(descriptor, F_DUPFD_CLOEXEC, STDERR_FILENO + 1);
    if (moved < 0)
        end_with("descriptor");
    close(descriptor);
    return moved;
}

static void own_both(int ends[2])
{
    ends[0] = own(ends[0]);
    ends[1] = own(ends[1]);
}

static int opened(const char *path, int how)
{
    return own(open(path, how));
}

static int opened_input(void)
{
    return opened(input_path, O_RDONLY);
}

static void make_pipe(int ends[2])
{
    if (pipe(ends) != 0)
        end_with("pipe");
    own_both(ends);
}

/* The least that a socket can hold, so that it takes parts of what is written. */
static void make_sockets(int ends[2])
{
    static const int least = 1;
    if (socketpair(AF_UNIX, SOCK_STREAM, 0, ends) != 0 ||
        setsockopt(ends[1], SOL_SOCKET, SO_SNDBUF, &least, sizeof least) != 0)
        end_with("sockets");
    own_both(ends);
}

static int made_file(void)
{
    FILE *file = tmpfile();
    if (file == NULL)
        end_with("file");
    int descriptor = own(dup(fileno(file)));
    fclose(file);
    return descriptor;
}

static void take_file(int file)
{
    lseek(file, 0, SEEK_SET);
    take_all(&said, file);
    close(file);
}

static void do_not_wait(int descriptor)
{
    if (fcntl(descriptor, F_SETFL, fcntl(descriptor, F_GETFL) | O_NONBLOCK) != 0)
        end_with("O_NONBLOCK");
}

/* ---- Running the program ---- */

enum { CLOSED = -1, NO_LIMIT = -1 };

typedef struct {
    int in, out;          /* its standard input and output */
    bool signals_ignored; /* those of a broken pipe and of a file that is too long */
    long longest_file;
} surroundings;

static surroundings plain(int in, int out)
{
    return (surroundings){in, out, false, NO_LIMIT};
}

static void put_in_place(int descriptor, int given)
{
    if (given == CLOSED)
        close(descriptor);
    else
        dup2(given, descriptor);
}

/* What keeps running is ended by an alarm. */
static void become_program(surroundings given, int errors_to)
{
    const struct rlimit none = {0, 0}, longest = {(rlim_t)given.longest_file, (rlim_t)given.longest_file};
    put_in_place(STDIN_FILENO, given.in);
    put_in_place(STDOUT_FILENO, given.out);
    put_in_place(STDERR_FILENO, errors_to);
    signal(SIGPIPE, given.signals_ignored ? SIG_IGN : SIG_DFL);
    signal(SIGXFSZ, given.signals_ignored ? SIG_IGN : SIG_DFL);
    setrlimit(RLIMIT_CORE, &none);
    if (given.longest_file != NO_LIMIT)
        setrlimit(RLIMIT_FSIZE, &longest);
    alarm(MOST_SECONDS);
    execvp(command[0], command);
    perror(command[0]);
    _exit(127);
}

static void start(surroundings given)
{
    int ends[2];
    make_pipe(ends);
    said.n = errors.n = 0;
    program = fork();
    if (program < 0)
        end_with("fork");
    if (program == 0)
        become_program(given, ends[1]);
    close(ends[1]);
    errors_end = ends[0];
}

static void await_end(void)
{
    waitpid(program, &status, 0);
    take_all(&errors, errors_end);
    close(errors_end);
}

static void run(surroundings given)
{
    start(given);
    await_end();
    close(given.in);
}

/* With all that it prints taken from a pipe. */
static void run_into_pipe(void)
{
    int ends[2], in = opened_input();
    make_pipe(ends);
    start(plain(in, ends[1]));
    close(ends[1]);
    take_all(&said, ends[0]);
    await_end();
    close(ends[0]);
    close(in);
}

static void run_into_file(int in, bool signals_ignored, long longest_file)
{
    int file = made_file();
    run((surroundings){in, file, signals_ignored, longest_file});
    take_file(file);
}

/* ---- What it left ---- */

static const char *amiss(const char *complaint, int ended_by, size_t printed)
{
    if (said.n > right.n || memcmp(said.bytes, right.bytes, said.n) != 0)
        return "not how the right text begins";
    if (said.n != printed)
        return "another length than it has to be";
    if (complaint == NULL && !ends_with_a_line())
        return "a part of a line, and no complaint";
    if (complaint == NULL && errors.n > 0)
        return "a complaint of nothing";
    if (complaint != NULL && !is_one_line(&errors, complaint))
        return "not the one line of complaint";
    if (ended_by == 0 ? !WIFEXITED(status) || WEXITSTATUS(status) != 0
                      : !WIFSIGNALED(status) || WTERMSIG(status) != ended_by)
        return "another end than it has to be";
    return NULL;
}

/* Is there one line of complaint that begins so, or none; was it ended by this signal, or none; was so much printed? */
static bool left(const char *complaint, int ended_by, size_t printed)
{
    const char *wrong = amiss(complaint, ended_by, printed);
    if (wrong == NULL)
        return true;
    printf("at %zu: %s. Printed: %zu bytes, where %zu of %zu were due. ", place, wrong, said.n, printed, right.n);
    if (WIFSIGNALED(status))
        printf("Signal: %d. ", WTERMSIG(status));
    else
        printf("Status: %d. ", WEXITSTATUS(status));
    printf("On standard error: %zu bytes\n%.*s", errors.n, (int)(errors.n < 300 ? errors.n : 300), errors.bytes);
    return false;
}

static bool left_all(void)
{
    return left(NULL, 0, right.n);
}

/* ---- Descriptors that are of no use ---- */

static bool output_full(void)
{
    run(plain(opened_input(), opened("/dev/full", O_WRONLY)));
    return left(CANNOT_WRITE, 0, 0);
}

static bool output_closed(void)
{
    run(plain(opened_input(), CLOSED));
    return left(CANNOT_WRITE, 0, 0);
}

static bool input_closed(void)
{
    run_into_file(CLOSED, false, NO_LIMIT);
    return left(CANNOT_READ, 0, 0);
}

static bool input_directory(void)
{
    run_into_file(opened(".", O_RDONLY), false, NO_LIMIT);
    return left(CANNOT_READ, 0, 0);
}

/* ---- A reader that leaves ---- */

/*
 * Takes so many bytes in small steps. When the pipe is full again and the program waits, it is stopped, so that what is
 * in the pipe can be taken too without making room for more.
 */
static bool leave_after(size_t bytes, bool ignored)
{
    int ends[2], in = opened_input();
    make_pipe(ends);
    start((surroundings){in, ends[1], ignored, NO_LIMIT});
    close(ends[1]);
    while (said.n < bytes && take(&said, ends[0], bytes - said.n < 999 ? bytes - said.n : 999))
        ;
    wait_for(20);
    kill(program, SIGSTOP);
    waitpid(program, &status, WUNTRACED);
    do_not_wait(ends[0]);
    take_all(&said, ends[0]);
    close(ends[0]);
    if (WIFSTOPPED(status))
        kill(program, SIGCONT);
    await_end();
    close(in);
    place = bytes;
    if (!left(CANNOT_WRITE, 0, said.n > bytes ? said.n : bytes))
        return false;
    if (!ends_with_a_line())
        printf("at %zu: %zu bytes went into the pipe, and these end inside a line\n", bytes, said.n);
    return ends_with_a_line();
}

static bool reader_leaves(bool ignored)
{
    static const size_t places[] = {0, 1, 4095, 4096, 4097, 30011, 250007};
    for (size_t i = 0; i < COUNT(places); i++)
        if (!leave_after(places[i], ignored))
            return false;
    return true;
}

static bool pipe_broken(void)
{
    return reader_leaves(true);
}

static bool pipe_broken_signal(void)
{
    return reader_leaves(false);
}

/* ---- Files that can only grow so long ---- */

/* A part that was taken is complained of. Where no byte was, the signal comes first if it is not ignored. */
static bool stops_at(size_t longest, bool ignored)
{
    run_into_file(opened_input(), ignored, (long)longest);
    place = longest;
    if (longest >= right.n)
        return left_all();
    if (!ignored && WIFSIGNALED(status))
        return left(NULL, SIGXFSZ, longest);
    return left(CANNOT_WRITE, 0, longest);
}

static bool files_end(bool ignored)
{
    const size_t second = answer_of(1), later = answer_of(20);
    const size_t lengths[] = {0,      1,          4095,  4096,      4097,        second - 1,
                              second, second + 1, later, later + 1, right.n - 1, right.n};
    for (size_t i = 0; i < COUNT(lengths); i++)
        if (!stops_at(lengths[i], ignored))
            return false;
    return true;
}

static bool file_limited(void)
{
    return files_end(true);
}

static bool file_limited_signal(void)
{
    return files_end(false);
}

/* ---- Descriptors that do not wait ---- */

/* Comes late, and takes small pieces with pauses. */
static bool slow_reader(int ends[2], size_t piece, long pause_milliseconds)
{
    do_not_wait(ends[1]);
    start(plain(opened_input(), ends[1]));
    close(ends[1]);
    wait_for(300);
    while (take(&said, ends[0], piece))
        wait_for(pause_milliseconds);
    await_end();
    return left_all();
}

static bool slow_pipe(void)
{
    int ends[2];
    make_pipe(ends);
    return slow_reader(ends, 3001, 1);
}

static bool slow_socket(void)
{
    int ends[2];
    make_sockets(ends);
    return slow_reader(ends, 1501, 20);
}

static bool is_taken(int pipe_end)
{
    int bytes = 0;
    return ioctl(pipe_end, FIONREAD, &bytes) != 0 || bytes == 0;
}

/* Each piece comes a while after the one before was taken. */
static void write_late(int to)
{
    static const size_t sizes[] = {1, 2, 3, 5, 7, 11, 13};
    size_t done = 0;
    for (size_t i = 0; done < input.n; i++) {
        size_t size = sizes[i % COUNT(sizes)], rest = input.n - done;
        wait_for(2);
        if (write(to, input.bytes + done, size < rest ? size : rest) < 0)
            return;
        done += size;
        for (int tries = 0; tries < 500 && !is_taken(to); tries++)
            wait_for(1);
    }
}

static bool late_writer(void)
{
    int ends[2], file = made_file();
    make_pipe(ends);
    do_not_wait(ends[0]);
    signal(SIGPIPE, SIG_IGN);
    start(plain(ends[0], file));
    close(ends[0]);
    wait_for(300);
    write_late(ends[1]);
    close(ends[1]);
    await_end();
    take_file(file);
    return left_all();
}

/* ---- Unsteady calls: the command loads what makes them so ---- */

static void set(const char *variable, const char *value)
{
    if (setenv(variable, value, 1) != 0)
        end_with(variable);
}

static void set_number(const char *variable, size_t value)
{
    char number[32];
    snprintf(number, sizeof number, "%zu", value);
    set(variable, number);
    place = value;
}

static bool goes_on(const char *reads, const char *writes)
{
    set("UNSTEADY_READ", reads);
    set("UNSTEADY_WRITE", writes);
    run_into_pipe();
    place++;
    return left_all();
}

static bool calls_interrupted(void)
{
    return goes_on("i.", ".") && goes_on(".", "i.") && goes_on("ii.p", "p") && goes_on("p", "iip.");
}

static bool calls_again(void)
{
    return goes_on("..p....i...a", ".") && goes_on(".", "p.i.....a..") &&
           goes_on("aaai............................", "ia.i............................");
}

/* It does not wait for ever. */
static bool calls_in_vain(void)
{
    set("UNSTEADY_READ", "a");
    run_into_pipe();
    if (!left(CANNOT_READ, 0, 0))
        return false;
    set("UNSTEADY_READ", ".");
    set("UNSTEADY_WRITE", "a");
    run_into_pipe();
    return left(CANNOT_WRITE, 0, 0);
}

static bool write_fails(void)
{
    const size_t second = answer_of(1);
    const size_t places[] = {0, 1, 4095, 4096, 4097, second - 1, second, second + 1, last_line(), right.n - 1};
    for (size_t i = 0; i < COUNT(places); i++) {
        if (places[i] >= right.n)
            continue; /* a short text */
        set_number("UNSTEADY_WRITE_END", places[i]);
        run_into_pipe();
        if (!left(CANNOT_WRITE, 0, places[i]))
            return false;
    }
    return true;
}

/* The first four bytes of the house file say its length. */
static size_t file_length(void)
{
    size_t length = 0;
    for (size_t i = 4; i-- > 0;)
        length = 256 * length + (uint8_t)input.bytes[i];
    return length;
}

/* Where the input fails, the windows that came whole are answered, and nothing is said of what came after them. */
static bool read_fails(void)
{
    const size_t file = file_length();
    const size_t places[] = {0,        1,        4,        5,        19,        20,          file - 1, file,
                             file + 1, file + 7, file + 8, file + 9, file + 43, input.n - 1, input.n};
    for (size_t i = 0; i < COUNT(places); i++) {
        set_number("UNSTEADY_READ_END", places[i]);
        run_into_pipe();
        if (!left(CANNOT_READ, 0, places[i] < file ? 0 : answer_of((places[i] - file) / 8)))
            return false;
    }
    return true;
}

/* ---- The command line ---- */

static const struct {
    const char *name;
    bool (*is_met)(void);
} cases[] = {
    {"output-full", output_full},
    {"output-closed", output_closed},
    {"input-closed", input_closed},
    {"input-directory", input_directory},
    {"pipe-broken", pipe_broken},
    {"pipe-broken-signal", pipe_broken_signal},
    {"file-limited", file_limited},
    {"file-limited-signal", file_limited_signal},
    {"slow-pipe", slow_pipe},
    {"slow-socket", slow_socket},
    {"late-writer", late_writer},
    {"calls-interrupted", calls_interrupted},
    {"calls-again", calls_again},
    {"calls-in-vain", calls_in_vain},
    {"write-fails", write_fails},
    {"read-fails", read_fails},
};

static void load(text *to, const char *path)
{
    int from = opened(path, O_RDONLY);
    take_all(to, from);
    close(from);
}

int main(int argc, char **argv)
{
    if (argc < 5) {
        fprintf(stderr, "usage: faults CASE INPUT RIGHT-OUTPUT COMMAND...\n");
        return 2;
    }
    input_path = argv[2];
    command = argv + 4;
    load(&input, input_path);
    load(&right, argv[3]);
    for (size_t i = 0; i < COUNT(cases); i++)
        if (strcmp(argv[1], cases[i].name) == 0)
            return cases[i].is_met() ? 0 : 1;
    fprintf(stderr, "faults: no case %s\n", argv[1]);
    return 2;
}
