// A program in C++, on its standard library: it looks at the chips' names, and asks one what it is.
#include <fcntl.h>
#include <linux/gpio.h>
#include <sys/ioctl.h>
#include <unistd.h>

#include <filesystem>
#include <fstream>
#include <iostream>
#include <string>

int main() {
    int devices = 0;
    for (const auto &entry : std::filesystem::directory_iterator("/dev"))
        devices += entry.path().filename().string().rfind("gpiochip", 0) == 0 && entry.is_character_file();
    std::ifstream file("/sys/bus/gpio/devices/gpiochip1/dev");
    std::string number;
    file >> number;
    gpiochip_info info{};
    int chip = open("/dev/gpiochip1", O_RDWR | O_CLOEXEC);
    if (chip < 0 || ioctl(chip, GPIO_GET_CHIPINFO_IOCTL, &info) < 0)
        return 1;
    std::cout << devices << " " << number << " " << std::filesystem::canonical("/sys/dev/char/254:1/subsystem").string()
              << " " << info.label << std::endl;
    return close(chip);
}
