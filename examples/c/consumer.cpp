// A host in C++17 over the same headers and archives: two peers, one rings the other; a server's records, read from a stream;
// and a server, whose records a client reads. Ends with 1 where an answer is not the one that it has to be.
#include <array>
#include <cstddef>
#include <cstdint>
#include <cstdio>
#include <vector>

#include "ivshmem.h"
#include "ivshmem_protocol.h"

namespace {

class Hub {
public:
    explicit Hub(const ivshmem_settings &settings)
        : words(ivshmem_hub_words(&settings)), region(ivshmem_total(&settings)), table(settings.peers),
          answer(ivshmem_set_up_hub(words.data(), words.size(), region.data(), region.size(), settings))
    {
    }

    std::uint32_t set_up_answer() const { return answer.number; }
    bool is_sound() const { return ivshmem_is_sound(words.data(), words.size()) == 1; }
    bool connect(std::uint64_t id) { return ivshmem_connect(words.data(), words.size(), id).number == IVSHMEM_ACCEPTED; }

    bool configure(std::uint64_t id, std::uint64_t offset, std::uint64_t width, std::uint32_t value)
    {
        return ivshmem_configuration_write(words.data(), words.size(), id, offset, width, value).number == IVSHMEM_ACCEPTED;
    }

    bool message(std::uint64_t id, std::uint64_t offset, std::uint32_t value)
    {
        return ivshmem_msix_write(words.data(), words.size(), id, offset, 4, value).number == IVSHMEM_ACCEPTED;
    }

    std::vector<ivshmem_delivery> write(std::uint64_t id, std::uint64_t offset, std::uint32_t value)
    {
        const ivshmem_counted told = ivshmem_register_write(words.data(), words.size(), region.data(), region.size(),
                                                            table.data(), table.size(), id, offset, 4, value);
        return {table.begin(), table.begin() + static_cast<std::ptrdiff_t>(told.count)};
    }

private:
    std::vector<std::uint32_t> words;
    std::vector<std::uint8_t> region;
    std::vector<ivshmem_delivery> table;
    ivshmem_reply answer;
};

bool switch_on(Hub &hub, std::uint64_t id)
{
    return hub.connect(id)
        && hub.configure(id, IVSHMEM_CONFIGURATION_COMMAND, 2, IVSHMEM_COMMAND_MEMORY | IVSHMEM_COMMAND_BUS_MASTER)
        && hub.message(id, IVSHMEM_MSIX_DATA, 0x40) && hub.message(id, IVSHMEM_MSIX_CONTROL, 0)
        && hub.configure(id, IVSHMEM_CONFIGURATION_MESSAGE_CONTROL, 2, IVSHMEM_MESSAGE_ENABLE)
        && hub.write(id, IVSHMEM_REGISTER_INTERRUPT_CONTROL, 1).empty();
}

class Reader {
public:
    explicit Reader(std::uint64_t vectors) : vectors(vectors) {}

    // The messages of a piece of the stream, which is not empty, in order.
    std::vector<std::uint32_t> read(const std::vector<std::uint8_t> &piece)
    {
        std::vector<std::uint32_t> messages;
        ivshmem_protocol_answer answer = {};
        std::size_t taken = 0;

        do {
            answer = ivshmem_protocol_read(progress, counts.data(), counts.size(), vectors, piece.data() + taken,
                                           piece.size() - taken);
            messages.push_back(answer.message);
            progress = answer.progress;
            taken += answer.taken;
        } while (answer.message != IVSHMEM_PROTOCOL_MESSAGE_MORE);
        return messages;
    }

    std::uint32_t id() const { return progress.own; }

private:
    std::uint64_t vectors;
    ivshmem_protocol_progress progress = {};
    std::array<std::uint8_t, IVSHMEM_PROTOCOL_IDS> counts = {};
};

bool reads_records()
{
    const std::vector<std::uint32_t> version = {IVSHMEM_PROTOCOL_MESSAGE_VERSION, IVSHMEM_PROTOCOL_MESSAGE_MORE};
    const std::vector<std::uint32_t> id = {IVSHMEM_PROTOCOL_MESSAGE_ID, IVSHMEM_PROTOCOL_MESSAGE_MORE};
    Reader reader(1);

    return reader.read({0, 0, 0, 0, 0, 0, 0, 0, 0, 0, 7}) == version && reader.read({0, 0, 0, 0, 0, 0, 0}) == id
        && reader.id() == 7;
}

class Server {
public:
    explicit Server(std::uint64_t vectors)
        : state(ivshmem_protocol_start(vectors).server), buffer(IVSHMEM_PROTOCOL_BUFFER_BYTES)
    {
    }

    ivshmem_protocol_served join() { return taken(ivshmem_protocol_join(state, buffer.data(), buffer.size())); }

    ivshmem_protocol_served leave(std::uint64_t id)
    {
        return taken(ivshmem_protocol_leave(state, id, buffer.data(), buffer.size()));
    }

    // The records of the last call to this client.
    std::vector<std::uint8_t> records(std::uint32_t client) const
    {
        std::vector<std::uint8_t> all;

        for (std::size_t place = 0; place < messages; place++) {
            const std::uint8_t *record = ivshmem_protocol_sent_record(buffer.data(), place);
            if (ivshmem_protocol_sent_at(buffer.data(), place).client == client)
                all.insert(all.end(), record, record + IVSHMEM_PROTOCOL_RECORD_BYTES);
        }
        return all;
    }

private:
    ivshmem_protocol_served taken(const ivshmem_protocol_served &served)
    {
        state = served.server;
        messages = served.messages;
        return served;
    }

    ivshmem_protocol_server state;
    std::vector<std::uint8_t> buffer;
    std::size_t messages = 0;
};

bool writes_records()
{
    const std::vector<std::uint32_t> start = {IVSHMEM_PROTOCOL_MESSAGE_VERSION, IVSHMEM_PROTOCOL_MESSAGE_ID,
                                              IVSHMEM_PROTOCOL_MESSAGE_MEMORY, IVSHMEM_PROTOCOL_MESSAGE_VECTOR,
                                              IVSHMEM_PROTOCOL_MESSAGE_MORE};
    const std::vector<std::uint32_t> vector = {IVSHMEM_PROTOCOL_MESSAGE_VECTOR, IVSHMEM_PROTOCOL_MESSAGE_MORE};
    const std::vector<std::uint32_t> left = {IVSHMEM_PROTOCOL_MESSAGE_DISCONNECTED, IVSHMEM_PROTOCOL_MESSAGE_MORE};
    Server server(1);
    Reader first(1);

    return server.join().id == 0 && first.read(server.records(0)) == start && server.join().id == 1
        && first.read(server.records(0)) == vector && server.leave(1).messages == 1 && first.read(server.records(0)) == left
        && server.leave(1).number == IVSHMEM_PROTOCOL_NOT_JOINED && server.join().id == 1;
}

} // namespace

int main()
{
    ivshmem_settings settings = {};
    settings.peers = 2;
    settings.vectors = 1;
    settings.state_table = 4096;
    settings.base = IVSHMEM_MIN_BASE;
    Hub hub(settings);

    if (hub.set_up_answer() != IVSHMEM_ACCEPTED || !hub.is_sound() || !switch_on(hub, 0) || !switch_on(hub, 1)) {
        std::puts("C++: no hub");
        return 1;
    }
    const std::vector<ivshmem_delivery> told = hub.write(0, IVSHMEM_REGISTER_DOORBELL, 0x00010000);
    if (told.size() != 1 || told[0].target != 1 || told[0].vector != 0 || told[0].data != 0x40) {
        std::puts("C++: peer 1 is not rung");
        return 1;
    }
    if (!reads_records()) {
        std::puts("C++: the server's records are read wrongly");
        return 1;
    }
    if (!writes_records()) {
        std::puts("C++: the server's records are written wrongly");
        return 1;
    }
    settings.peers = 1;
    return Hub(settings).set_up_answer() == IVSHMEM_BAD_SETTING ? 0 : 1;
}
