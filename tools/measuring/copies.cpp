// Copies as many objects of 32 words as it is told, by the C library, so many times over, and prints the processor seconds of one time:
// for tools/measure costs.
//
//     copies OBJECTS TIMES
//     copies WORDS TIMES WAY          the words of one object move down by so many, so many times over: nothing is printed
#include <cstdio>
#include <cstdlib>
#include <cstring>
#include <ctime>
#include <vector>

int main(int count, char** arguments) {
    if (count > 3) {
        const std::size_t words = std::strtoul(arguments[1], nullptr, 10), way = std::strtoul(arguments[3], nullptr, 10);
        std::vector<unsigned long> row(words + way, 1);
        volatile std::size_t bytes = words * sizeof(unsigned long);
        for (int time = std::atoi(arguments[2]); time > 0; --time) std::memmove(row.data(), row.data() + way, bytes);
        return row[0] == 1 ? 0 : 1;
    }
    const std::size_t size = 32, objects = std::strtoul(arguments[1], nullptr, 10);
    const int times = std::atoi(arguments[2]);
    std::vector<unsigned long> from(objects * size, 1), to(objects * size, 2);
    volatile std::size_t bytes = size * sizeof(unsigned long);
    timespec start, end;
    clock_gettime(CLOCK_PROCESS_CPUTIME_ID, &start);
    for (int time = 0; time < times; ++time)
        for (std::size_t object = 0; object < objects; ++object)
            std::memcpy(&to[object * size], &from[object * size], bytes);
    clock_gettime(CLOCK_PROCESS_CPUTIME_ID, &end);
    double seconds = double(end.tv_sec - start.tv_sec) + double(end.tv_nsec - start.tv_nsec) / 1e9;
    std::printf("%.9f\n", seconds / times);
    return to[0] == from[0] ? 0 : 1;
}
