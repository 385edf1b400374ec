/* The first program of the kernel that checks/linux/record boots: it runs the probe over /lists, writes what that
 * prints to the second serial line, and ends the machine. */
#include <errno.h>
#include <fcntl.h>
#include <stdio.h>
#include <stdlib.h>
#include <string.h>
#include <sys/mount.h>
#include <sys/reboot.h>
#include <sys/stat.h>
#include <sys/wait.h>
#include <termios.h>
#include <unistd.h>

static void mount_at(const char *type, const char *folder) {
    if (mkdir(folder, 0755) && errno != EEXIST)
        fprintf(stderr, "init: %s: %s\n", folder, strerror(errno));
    if (mount(type, folder, type, 0, NULL) && errno != EBUSY)
        fprintf(stderr, "init: %s at %s: %s\n", type, folder, strerror(errno));
}

/* Makes the second serial line standard output, without any change to what is written. */
static void open_results(void) {
    struct termios settings;
    int descriptor = open("/dev/ttyS1", O_WRONLY | O_NOCTTY);
    if (descriptor < 0 || tcgetattr(descriptor, &settings)) {
        fprintf(stderr, "init: /dev/ttyS1: %s\n", strerror(errno));
        return;
    }
    cfmakeraw(&settings);
    tcsetattr(descriptor, TCSANOW, &settings);
    dup2(descriptor, STDOUT_FILENO);
}

/* Runs the probe with the words of /words, one in each line. */
static void run_probe(void) {
    static char text[4096];
    char *words[64] = {"/probe"};
    int count = 1, descriptor = open("/words", O_RDONLY);
    ssize_t length = descriptor < 0 ? -1 : read(descriptor, text, sizeof text - 1);
    text[length < 0 ? 0 : length] = '\0';
    for (char *word = strtok(text, "\n"); word && count < 62; word = strtok(NULL, "\n"))
        words[count++] = word;
    words[count++] = "/lists";
    words[count] = NULL;
    execv("/probe", words);
    fprintf(stderr, "init: /probe: %s\n", strerror(errno));
    _exit(127);
}

int main(void) {
    int status = 0;
    mount_at("proc", "/proc");
    mount_at("sysfs", "/sys");
    mount_at("devtmpfs", "/dev");
    mount_at("configfs", "/sys/kernel/config");
    open_results();
    pid_t probe = fork();
    if (probe == 0)
        run_probe();
    if (probe > 0)
        waitpid(probe, &status, 0);
    printf("ended %d\n", WIFEXITED(status) ? WEXITSTATUS(status) : 128 + WTERMSIG(status));
    fflush(stdout);
    tcdrain(STDOUT_FILENO);
    reboot(RB_AUTOBOOT);
    return 0;
}
