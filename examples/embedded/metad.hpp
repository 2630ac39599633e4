/// A server inside a program in C++17: a class that opens it and frees it. Copy this file into your program.
#pragma once

#include <metad.h>

#include <memory>
#include <stdexcept>
#include <string>
#include <string_view>

/// A call of the library that was not METAD_DONE.
class MetadError : public std::runtime_error {
public:
    MetadError(metad_status status, const std::string &text) : std::runtime_error(text), status(status) {}

    const metad_status status;
};

/// A server. It can be moved, and is used by one thread at a time.
class MetadServer {
public:
    /// Opens a server with the classes of a class file, or with the demonstration classes.
    explicit MetadServer(std::string_view classes = {}, std::uint32_t turns = METAD_TURNS)
    {
        metad *made = nullptr;
        metad_fault fault{0, 0};
        const metad_status status = metad_open(&made, classes.data(), classes.size(), turns, nullptr, &fault);
        m_server.reset(made);
        if (status == METAD_BAD_CLASSES)
            throw MetadError(status, "C0" + std::to_string(fault.kind) + " in class " + std::to_string(fault.class_number));
        check(status, "no server");
    }

    /// The answer to a line: lines of JSON, the last of which is the reply or the error.
    std::string answer(std::string_view line)
    {
        check(metad_line(m_server.get(), line.data(), line.size()), "no answer");
        return fetch();
    }

    /// The answer to a line of this session, whatever session the line names.
    std::string answer_for(const std::string &session, std::string_view line)
    {
        check(metad_line_for(m_server.get(), session.c_str(), line.data(), line.size()), "no answer for " + session);
        return fetch();
    }

private:
    struct Closing {
        void operator()(metad *server) const { metad_close(&server); }
    };

    static void check(metad_status status, const std::string &what)
    {
        if (status != METAD_DONE)
            throw MetadError(status, what + ": status " + std::to_string(status));
    }

    std::string fetch()
    {
        std::string answer(metad_output_len(m_server.get()), '\0');
        std::size_t length = 0;
        check(metad_output(m_server.get(), answer.data(), answer.size(), &length), "no answer");
        return answer;
    }

    std::unique_ptr<metad, Closing> m_server;
};
