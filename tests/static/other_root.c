// other_root WORD..: runs the static program in the root folder ROOT, in the current folder. Checks that run outside
// that root run this instead of the program.
#include <limits.h>
#include <stdio.h>
#include <unistd.h>

int main(int count, char **words) {
    char folder[PATH_MAX];
    (void)count;
    if (getcwd(folder, sizeof folder) == NULL || chroot(ROOT) != 0 || chdir(folder) != 0) {
        perror("other_root: " ROOT);
        return 125;
    }
    execv("/bin/units", words);
    perror("other_root: /bin/units");
    return 125;
}
