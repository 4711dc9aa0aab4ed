// plain_heap: does the lines of a heap script in order and prints the record, as `g1heap run` does.
//
//   g++ -O2 -std=c++17 -o plain_heap plain/plain_heap.cpp
//   plain_heap run FILE
//
// FILE may be - for standard input.
// Faults are printed as g1heap prints them, with its name, so that the two programs' outputs can be compared.

#include <cerrno>
#include <csignal>
#include <cstdio>
#include <cstdlib>
#include <fcntl.h>
#include <new>
#include <string>
#include <sys/stat.h>
#include <unistd.h>

#include "plain_script.h"

namespace {

using namespace plain;

// The first fault of the sizes, none if they suit.
const char* size_fault(const Sizes& sizes) {
    bool is_first = sizes.format == 1, is_third = sizes.format == 3;
    if (sizes.regions < 2 || sizes.regions > (is_third ? 16384 : 1024)) return "1 BadRegions";
    Number most_words = is_first ? 4096 : is_third ? 4194304 : 16384, most = is_first ? 1048576 : is_third ? 2147483648 : 16777216;
    if (sizes.words < 16 || sizes.words > most_words || (sizes.words & (sizes.words - 1)) != 0 ||
        Word(sizes.regions) * sizes.words > most)
        return "2 BadWords";
    if (sizes.buffer < 4 || sizes.buffer > sizes.words / 2) return "3 BadBuffer";
    if (sizes.mutators < 1 || sizes.mutators > (sizes.format == 3 ? 64 : 16)) return "4 BadMutators";
    if (sizes.card < 8 || sizes.card > (is_third ? 512 : 64) || (sizes.card & (sizes.card - 1)) != 0 || sizes.card > sizes.words)
        return "6 BadCard";
    if (sizes.globals > 65536) return "7 BadGlobals";
    if (sizes.registers < 1 || sizes.registers > 65536) return "8 BadRegisters";
    if (sizes.globals + sizes.registers * sizes.mutators > 1048576) return "9 BadRoots";
    return nullptr;
}

// Gathers text for standard output and writes it in large pieces.
class Output {
public:
    Output() : pieces_(new char[size + slack]), at_(pieces_.get()) {}

    void text(const char* from, std::size_t length) {
        std::memcpy(at_, from, length);
        at_ += length;
    }
    template <std::size_t Size>
    void text(const char (&from)[Size]) { text(from, Size - 1); }
    void byte(char value) { *at_++ = value; }

    void number(Word value) {
        char digits[20];
        char* first = digits + 20;
        while (value >= 100) {
            first -= 2;
            std::memcpy(first, &pairs[2 * (value % 100)], 2);
            value /= 100;
        }
        if (value >= 10) {
            first -= 2;
            std::memcpy(first, &pairs[2 * value], 2);
        } else {
            *--first = char('0' + value);
        }
        text(first, std::size_t(digits + 20 - first));
    }

    // To be called after each line: makes room for the next one.
    bool line() { return at_ < pieces_.get() + size || flush(); }

    bool flush() {
        for (const char* from = pieces_.get(); from != at_;) {
            ssize_t written = ::write(STDOUT_FILENO, from, std::size_t(at_ - from));
            if (written < 0 && errno == EINTR) continue;
            if (written <= 0) return false;
            from += written;
        }
        at_ = pieces_.get();
        return true;
    }

private:
    // A line of a record takes less than the slack.
    static constexpr std::size_t size = 1 << 16, slack = 512;
    static constexpr char pairs[201] =
        "00010203040506070809101112131415161718192021222324252627282930313233343536373839404142434445464748495051"
        "525354555657585960616263646566676869707172737475767778798081828384858687888990919293949596979899";
    std::unique_ptr<char[]> pieces_;
    char* at_;
};

void print_refusal(Output& output, Refusal refusal) {
    switch (refusal) {
    case Refusal::Nil: return output.text("refused 1 Nil");
    case Refusal::NoField: return output.text("refused 2 NoField");
    case Refusal::Full: return output.text("refused 3 Full");
    case Refusal::TooBig: return output.text("refused 4 TooBig");
    case Refusal::NamesSpent: return output.text("refused 5 NamesSpent");
    case Refusal::MarkRunning: return output.text("refused 6 MarkRunning");
    case Refusal::NotMarking: return output.text("refused 7 NotMarking");
    }
}

void print_reply(Output& output, const Reply& reply) {
    switch (reply.form) {
    case Form::Ok: return output.text("ok");
    case Form::Nil: return output.text("nil");
    case Form::Name: output.byte('#'); return output.number(reply.first);
    case Form::Value: return output.number(reply.first);
    case Form::Shape: break;
    case Form::Marked: output.text("marked "); return output.number(reply.first);
    case Form::Reclaimed: output.text("reclaimed "); return output.number(reply.first);
    case Form::Refined: output.text("refined "); return output.number(reply.first);
    case Form::Moved: output.text("moved "); break;
    case Form::Refused: return print_refusal(output, reply.refusal);
    }
    output.number(reply.first);
    output.byte(' ');
    output.number(reply.second);
}

// Does all steps and prints the record: each step is spelled as in the script, since it can be spelled in one way alone.
bool print_record(const std::string& text, const Script& script) {
    Heap heap(script.sizes);
    Output output;
    const char* at = text.data();
    output.text(at, script.heap_line + 1);
    at += script.heap_line + 1;
    Word count = 0;
    for (const Step& step : script.steps) {
        output.number(++count);
        output.byte(' ');
        output.text(at, step.length);
        at += step.length + 1;
        output.text(" = ");
        print_reply(output, do_step(heap, step));
        output.byte('\n');
        if (!output.line()) return false;
    }
    return output.flush();
}

bool read_file(const char* path, std::string& text) {
    bool is_input = std::strcmp(path, "-") == 0;
    int file = is_input ? STDIN_FILENO : ::open(path, O_RDONLY);
    if (file < 0) return false;
    struct stat status;
    std::size_t expected = ::fstat(file, &status) == 0 && status.st_size > 0 ? std::size_t(status.st_size) : 4096;
    std::size_t length = 0;
    text.resize(expected + 1);
    for (;;) {
        if (length == text.size()) text.resize(2 * length);
        ssize_t got = ::read(file, &text[length], text.size() - length);
        if (got < 0 && errno == EINTR) continue;
        if (got < 0) return false;
        if (got == 0) break;
        length += std::size_t(got);
    }
    text.resize(length);
    if (!is_input) ::close(file);
    return true;
}

int fault(const std::string& text) {
    std::fprintf(stderr, "g1heap: %s\n", text.c_str());
    return 1;
}

int run(const char* path) {
    std::string text;
    if (!read_file(path, text)) return fault("cannot read");
    Script script;
    LineFault line_fault = read_script(text, script);
    if (line_fault.line != 0) return fault("line " + std::to_string(line_fault.line) + ": " + line_fault.name);
    if (const char* name = size_fault(script.sizes)) return fault(std::string("heap: ") + name);
    return print_record(text, script) ? 0 : fault("cannot write");
}

constexpr char usage[] = "Usage: plain_heap run FILE\n";

}  // namespace

int main(int count, char** arguments) {
    // A reader of the record that went away is a fault in writing, not an end without a word.
    std::signal(SIGPIPE, SIG_IGN);
    const char *command = nullptr, *path = nullptr;
    for (int place = 1; place < count; ++place) {
        const char* word = arguments[place];
        if (std::strcmp(word, "--help") == 0) {
            std::fputs(usage, stdout);
            return 0;
        }
        if ((word[0] == '-' && word[1] != '\0') || path != nullptr) {
            command = nullptr;
            break;
        } else if (command == nullptr) {
            command = word;
        } else {
            path = word;
        }
    }
    if (command == nullptr || std::strcmp(command, "run") != 0 || path == nullptr) {
        std::fputs(usage, stderr);
        return 2;
    }
    try {
        return run(path);
    } catch (const std::bad_alloc&) {
        return fault("run: 2 NoMemory");
    }
}
