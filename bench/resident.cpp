// Runs a program, and writes its exit status (-1 where a signal ended it) and its greatest resident size in kB to a file.
// This program is small, so that the size is that of the other one.
//
//     resident FILE PROGRAM [WORD ..]
#include <sys/resource.h>
#include <sys/wait.h>
#include <unistd.h>

#include <cstdio>

int main(int count, char** words) {
    if (count < 3) return 1;
    pid_t child = fork();
    if (child == 0) {
        execv(words[2], words + 2);
        _exit(127);
    }
    int status = 0;
    struct rusage usage;
    if (child < 0 || wait4(child, &status, 0, &usage) < 0) return 1;
    std::FILE* file = std::fopen(words[1], "w");
    if (!file) return 1;
    std::fprintf(file, "%d %ld\n", WIFEXITED(status) ? WEXITSTATUS(status) : -1, usage.ru_maxrss);
    return std::fclose(file);
}
