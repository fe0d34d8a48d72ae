// Runs a command several times and prints its least clock time and processor time in seconds and its greatest peak of memory in
// kB: measure RUNS COMMAND WORD.. The command's standard output goes to nothing. It ends with the command's status where that
// is neither 0 nor 1.
#include <sys/resource.h>
#include <sys/wait.h>
#include <fcntl.h>
#include <unistd.h>
#include <algorithm>
#include <chrono>
#include <cstdio>
#include <cstdlib>

static double seconds(const timeval &time) { return static_cast<double>(time.tv_sec) + static_cast<double>(time.tv_usec) / 1e6; }

int main(int count, char **words) {
    if (count < 3) {
        std::fprintf(stderr, "usage: measure RUNS COMMAND WORD..\n");
        return 2;
    }
    double clock = 1e9;
    double processor = 1e9;
    long memory = 0;
    for (int run = std::atoi(words[1]); run > 0; run--) {
        auto from = std::chrono::steady_clock::now();
        pid_t child = fork();
        if (child == 0) {
            dup2(open("/dev/null", O_WRONLY), 1);
            execv(words[2], words + 2);
            _exit(126);
        }
        int status = 0;
        rusage usage{};
        wait4(child, &status, 0, &usage);
        clock = std::min(clock, std::chrono::duration<double>(std::chrono::steady_clock::now() - from).count());
        processor = std::min(processor, seconds(usage.ru_utime) + seconds(usage.ru_stime));
        memory = std::max(memory, usage.ru_maxrss);
        int code = WIFEXITED(status) ? WEXITSTATUS(status) : 128;
        if (code > 1) return code;
    }
    std::printf("%.3f %.3f %ld\n", clock, processor, memory);
    return 0;
}
