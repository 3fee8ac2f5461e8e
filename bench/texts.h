// The texts of docs/FORMATS.md, in versions 1 and 2: reads a workload that is well formed, and prints a report.
#pragma once
#include "store.h"
#include <cstdio>
#include <cstring>
#include <string>
#include <vector>

struct Job { uint32_t line, worker, begin, count; };

struct Workload {
  uint32_t version = 0, workers = 1, accounts = 0, list = 0, tree = 0;
  uint64_t opening = 0;
  std::vector<Operation> operations;
  std::vector<Job> jobs;
};

static std::string read_all() {
  std::string text(1 << 16, '\0');
  size_t length = 0;
  while (size_t more = fread(&text[length], 1, text.size() - length, stdin)) {
    length += more;
    if (length == text.size()) text.resize(2 * length);
  }
  text.resize(length);
  return text;
}

// The fields of a text, line by line.
class Fields {
 public:
  explicit Fields(const std::string &text) : at_(text.data()), end_(at_ + text.size()) {}
  bool is_done() const { return at_ == end_; }

  // The next field of this line, empty at its end.
  std::string_view next() {
    while (at_ < end_ && *at_ == ' ') at_++;
    const char *from = at_;
    while (at_ < end_ && *at_ != ' ' && *at_ != '\n') at_++;
    return {from, size_t(at_ - from)};
  }
  uint64_t number() {
    uint64_t number = 0;
    for (char digit : next()) number = number * 10 + uint64_t(digit - '0');
    return number;
  }
  void end_line() {
    while (at_ < end_ && *at_ != '\n') at_++;
    if (at_ < end_) at_++;
  }

 private:
  const char *at_, *end_;
};

static Operation read_operation(Fields &fields, std::string_view word) {
  Operation op{Verb::Total, 0, 0, 0};
  if (word == "total") return op;
  if (word == "transfer") {
    op.verb = Verb::Transfer;
    op.first = fields.number();
    op.second = fields.number();
    op.number = fields.number();
  } else if (word == "balance") {
    op.verb = Verb::Balance;
    op.first = fields.number();
  } else if (word == "put") {
    op.verb = Verb::Put;
    op.first = fields.number();
    op.number = fields.number();
  } else if (word == "get") {
    op.verb = Verb::Get;
    op.first = fields.number();
  } else {
    bool in_list = fields.next() == "list";
    if (word == "insert") op.verb = in_list ? Verb::ListInsert : Verb::TreeInsert;
    else if (word == "remove") op.verb = in_list ? Verb::ListRemove : Verb::TreeRemove;
    else op.verb = in_list ? Verb::ListMember : Verb::TreeMember;
    op.first = fields.number();
  }
  return op;
}

static void read_job(Fields &fields, uint32_t line, Workload &load) {
  Job job{line, uint32_t(fields.number()), uint32_t(load.operations.size()), 0};
  do {
    load.operations.push_back(read_operation(fields, fields.next()));
    job.count++;
  } while (!fields.next().empty());  // a semicolon
  load.jobs.push_back(job);
}

static Workload read_workload(const std::string &text) {
  Workload load;
  Fields fields(text);
  for (uint32_t line = 1; !fields.is_done(); line++, fields.end_line()) {
    std::string_view word = fields.next();
    if (word.empty() || word[0] == '#') continue;
    if (word == "tx") read_job(fields, line, load);
    else if (word == "dstm") load.version = fields.number();
    else if (word == "workers") load.workers = fields.number();
    else if (word == "bank") { load.accounts = fields.number(); load.opening = fields.number(); }
    else if (word == "list") load.list = fields.number();
    else if (word == "tree") load.tree = fields.number();
  }
  return load;
}

static void print_number(std::string &out, uint64_t number) {
  char digits[20];
  int at = 20;
  do digits[--at] = char('0' + number % 10); while (number /= 10);
  out.append(digits + at, size_t(20 - at));
}

static void print_reply(std::string &out, uint64_t reply) {
  switch (reply) {
    case Ok: out += "ok"; return;
    case Poor: out += "poor"; return;
    case Yes: out += "true"; return;
    case No: out += "false"; return;
    case Full: out += "full"; return;
    case Absent: out += "none"; return;
    default: print_number(out, reply);
  }
}

static void print_tree(std::string &out, uint32_t node, bool with_values) {
  if (!node) return;
  print_tree(out, tree_nodes[node].child[0], with_values);
  out += ' ';
  print_number(out, tree_nodes[node].key);
  if (with_values) { out += ':'; print_number(out, tree_nodes[node].value); }
  print_tree(out, tree_nodes[node].child[1], with_values);
}

// The rows stand in file order.
static std::string report_of(const Workload &load, const std::vector<uint64_t> &replies) {
  std::string out = "dstm report ";
  print_number(out, load.version);
  out += '\n';
  uint64_t place = 0;
  for (const Job &job : load.jobs) {
    print_number(out, job.line);
    out += ' ';
    print_number(out, job.worker);
    out += " 0.";
    print_number(out, place++);
    for (uint32_t i = 0; i < job.count; i++) {
      out += i ? " ; " : " ";
      print_reply(out, replies[job.begin + i]);
    }
    out += '\n';
  }
  if (load.accounts) {
    out += "bank";
    for (uint32_t i = 0; i < load.accounts; i++) { out += ' '; print_number(out, accounts[i]); }
    out += '\n';
  }
  if (load.list) {
    out += "list";
    for (uint32_t i = list_head; i; i = list_nodes[i].next) { out += ' '; print_number(out, list_nodes[i].key); }
    out += '\n';
  }
  if (load.tree) {
    out += "tree";
    print_tree(out, tree_root, load.version >= 2);
    out += '\n';
  }
  out += "end ";
  print_number(out, place);
  out += '\n';
  return out;
}
