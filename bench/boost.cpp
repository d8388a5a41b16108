// Times a write and its read by boost's interprocess message queue. Prints one line for each figure, as pairs.c does.
#include <boost/interprocess/ipc/message_queue.hpp>
#include <cstdio>
#include <ctime>
#include <string>
#include <unistd.h>

static double now()
{
    timespec t;
    clock_gettime(CLOCK_PROCESS_CPUTIME_ID, &t);
    return 1e9 * static_cast<double>(t.tv_sec) + static_cast<double>(t.tv_nsec);
}

int main()
{
    using namespace boost::interprocess;
    const std::string name = "tendrilhook-bench-" + std::to_string(getpid());
    message_queue queue(create_only, name.c_str(), 8, 256);
    message_queue::remove(name.c_str());
    char bytes[256] = {};
    for (const unsigned size : { 8u, 80u, 256u }) {
        double least = 1e18;
        for (int round = 0; round < 15; round++) {
            const double start = now();
            for (int n = 0; n < 20000; n++) {
                message_queue::size_type got;
                unsigned priority;
                queue.send(bytes, size, 0);
                queue.receive(bytes, sizeof bytes, got, priority);
                if (got != size) return 1;
            }
            const double each = (now() - start) / 20000;
            if (each < least) least = each;
        }
        std::printf("boost message_queue\t%u\t%.1f\n", size, least);
    }
}
