/// A form whose button is enabled by a binding, in a server inside this program: form CLASSES
#include "metad.hpp"

#include <fstream>
#include <iostream>
#include <iterator>

namespace {

const char *const lines[] = {
    R"~({"do":"new","class":"Form"})~",
    R"~({"do":"new","class":"Text","parent":1})~",
    R"~({"do":"new","class":"Button","parent":1})~",
    R"~({"do":"connect","sender":3,"signal":"enabledChanged(bool)","receiver":1,"method":"enable(bool)"})~",
    R"~({"do":"bind","object":3,"property":"enabled","to":{"if":[{"=":[{"prop":"text","of":2},{"const":""}]},{"const":false},{"const":true}]}})~",
    R"~({"do":"set","object":2,"property":"text","value":"ann"})~",
    R"~({"do":"set","object":2,"property":"text","value":""})~",
};

int run(const char *name)
{
    std::ifstream file(name, std::ios::binary);
    if (!file)
        throw std::runtime_error(std::string("there is no file ") + name);
    const std::string classes{std::istreambuf_iterator<char>(file), {}};
    MetadServer server(classes);
    for (const char *line : lines)
        std::cout << line << '\n' << server.answer_for("form", line);
    return 0;
}

} // namespace

int main(int count, char **words)
{
    if (count != 2)
        return std::cerr << "usage: form CLASSES\n", 2;
    try {
        return run(words[1]);
    } catch (const std::exception &error) {
        std::cerr << "form: " << error.what() << '\n';
        return 1;
    }
}
