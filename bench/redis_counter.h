// Counts in Redis, for bench/peers.cc.

#pragma once

#include "counter.h"

#include <fcntl.h>
#include <signal.h>
#include <sys/prctl.h>
#include <sys/socket.h>
#include <sys/un.h>
#include <sys/wait.h>
#include <unistd.h>

#include <chrono>
#include <cstring>
#include <stdexcept>
#include <string>
#include <string_view>
#include <thread>

// A redis-server of our own, in the present folder. Its end is waited for, so what it took counts as ours.
class Server {
 public:
  static constexpr const char* SOCKET = "redis.socket";

  Server() : pid_(fork()) {
    if (pid_ < 0) throw system_fault("fork");
    if (pid_ == 0) become_server();
  }

  Server(const Server&) = delete;
  Server& operator=(const Server&) = delete;

  ~Server() {
    if (pid_ <= 0) return;
    kill(pid_, SIGTERM);
    waitpid(pid_, nullptr, 0);
  }

  bool has_ended() {
    int status;
    if (pid_ > 0 && waitpid(pid_, &status, WNOHANG) == pid_) pid_ = 0;
    return pid_ == 0;
  }

  // Waits for the end that it was asked for.
  void join() {
    int status;
    const pid_t pid = pid_;
    pid_ = 0;
    if (waitpid(pid, &status, 0) != pid) throw system_fault("waitpid");
    if (!WIFEXITED(status) || WEXITSTATUS(status) != 0) throw std::runtime_error("redis-server failed");
  }

 private:
  // Without snapshots: they would be a second copy beside the file of commands. What it says isn't kept.
  [[noreturn]] static void become_server() {
    prctl(PR_SET_PDEATHSIG, SIGTERM);
    dup2(open("/dev/null", O_WRONLY | O_CLOEXEC), STDOUT_FILENO);
    execlp("redis-server", "redis-server", "--port", "0", "--unixsocket", SOCKET, "--appendonly", "yes",
           "--appendfsync", "always", "--save", "", static_cast<char*>(nullptr));
    _exit(127);
  }

  pid_t pid_;
};

// A connection to a server, which speaks RESP.
class Connection {
 public:
  explicit Connection(Server& server) {
    sockaddr_un address{};
    address.sun_family = AF_UNIX;
    std::strcpy(address.sun_path, Server::SOCKET);
    const auto deadline = std::chrono::steady_clock::now() + std::chrono::seconds(60);
    while (!connects(address)) {
      if (server.has_ended()) throw std::runtime_error("redis-server doesn't run");
      if (std::chrono::steady_clock::now() > deadline) throw std::runtime_error("redis-server doesn't answer");
      std::this_thread::sleep_for(std::chrono::milliseconds(1));
    }
  }

  Connection(const Connection&) = delete;
  Connection& operator=(const Connection&) = delete;

  ~Connection() { ::close(socket_); }

  void send(const std::string& text) {
    for (std::size_t at = 0; at < text.size();) {
      const auto sent = ::send(socket_, text.data() + at, text.size() - at, MSG_NOSIGNAL);
      if (sent < 0) throw system_fault("send");
      at += static_cast<std::size_t>(sent);
    }
  }

  // The next line, without its end. A view of it holds until the next call.
  std::string_view line() {
    for (std::size_t looked = at_;;) {
      const auto end = text_.find("\r\n", looked);
      if (end != std::string::npos) {
        const std::string_view found(text_.data() + at_, end - at_);
        at_ = end + 2;
        return found;
      }
      text_.erase(0, at_);
      at_ = 0;
      // The first half of a line's end may stand there.
      looked = text_.empty() ? 0 : text_.size() - 1;
      receive();
    }
  }

  // Takes a line that has to be this one.
  void expect(std::string_view due) {
    const auto found = line();
    if (found != due) throw std::runtime_error("redis-server says " + std::string(found));
  }

 private:
  // A server that hasn't got so far refuses, or has made no socket.
  bool connects(const sockaddr_un& address) {
    socket_ = socket(AF_UNIX, SOCK_STREAM | SOCK_CLOEXEC, 0);
    if (socket_ < 0) throw system_fault("socket");
    if (connect(socket_, reinterpret_cast<const sockaddr*>(&address), sizeof address) == 0) return true;
    ::close(socket_);
    socket_ = -1;
    return false;
  }

  void receive() {
    char part[1 << 16];
    const auto len = recv(socket_, part, sizeof part, 0);
    if (len < 0) throw system_fault("recv");
    if (len == 0) throw std::runtime_error("redis-server closed the connection");
    text_.append(part, static_cast<std::size_t>(len));
  }

  int socket_ = -1;
  std::string text_;
  std::size_t at_ = 0;
};

// The counts in Redis, which adds to them by itself.
class RedisCounter : public Counter {
 public:
  explicit RedisCounter(std::uint64_t threshold)
      : connection_(server_), reply_at_threshold_(":" + std::to_string(threshold)) {}

  // Redis answers EXEC once the commands are synced.
  Keys count(const Keys& keys) override {
    std::string text = "*1\r\n$5\r\nMULTI\r\n";
    for (const auto& key : keys) {
      text += "*2\r\n$4\r\nINCR\r\n$8\r\n";
      text.append(reinterpret_cast<const char*>(&key), sizeof key);
      text += "\r\n";
    }
    text += "*1\r\n$4\r\nEXEC\r\n";
    connection_.send(text);
    connection_.expect("+OK");
    for (std::size_t queued = 0; queued < keys.size(); ++queued) connection_.expect("+QUEUED");
    connection_.expect("*" + std::to_string(keys.size()));
    Keys reached;
    for (const auto key : keys) {
      const auto reply = connection_.line();
      if (reply.empty() || reply[0] != ':') throw std::runtime_error("redis-server says " + std::string(reply));
      if (reply == reply_at_threshold_) reached.push_back(key);
    }
    return reached;
  }

  void close() override {
    connection_.send("*2\r\n$8\r\nSHUTDOWN\r\n$6\r\nNOSAVE\r\n");
    server_.join();
  }

 private:
  Server server_;
  Connection connection_;
  const std::string reply_at_threshold_;
};
