//! What the scripts of `run` ask of `ircd sim`, in plain Rust: clients of one server register and join a channel, and ask LIST, WHO, WHOIS and LUSERS.
//! It prints the answers to these four as `ircd sim` does, and nothing else. As there, users and channels stand in order of name, and a member is known by its
//! nickname.
use std::collections::{BTreeMap, BTreeSet};
use std::fmt::Write as _;
use std::io::{self, Read, Write};

/// A write is made once so much is waiting.
const BATCH: usize = 65_536;

/// How many channels stand in a 319.
const CHANNELS_IN_LINE: usize = 5;

#[derive(Default)]
struct User {
    nick: String,
    name: String,
    host: String,
    real: String,
    invisible: bool,
    channels: BTreeSet<String>,
}

struct Channel {
    name: String,
    topic: String,
    /// By nickname, whether it is an operator.
    members: BTreeMap<String, bool>,
}

#[derive(Default)]
struct Room {
    server: String,
    users: BTreeMap<String, User>,
    channels: BTreeMap<String, Channel>,
}

fn fold(name: &str) -> String {
    let folded = name.bytes().map(|byte| match byte {
        b'A'..=b'Z' => byte + 32,
        b'[' => b'{',
        b']' => b'}',
        b'\\' => b'|',
        b'~' => b'^',
        _ => byte,
    });
    folded.map(char::from).collect()
}

impl Room {
    fn join(&mut self, me: &str, name: &str) {
        let channel = self.channels.entry(fold(name)).or_insert_with(|| Channel {
            name: name.to_string(),
            topic: String::new(),
            members: BTreeMap::new(),
        });
        let operator = channel.members.is_empty();
        channel.members.insert(me.to_string(), operator);
        if let Some(user) = self.users.get_mut(me) {
            user.channels.insert(fold(name));
        }
    }

    fn list(&self, me: &str, answer: &mut dyn FnMut(&str, std::fmt::Arguments<'_>)) {
        for channel in self.channels.values() {
            let all = channel.members.contains_key(me);
            let named = channel.members.keys().filter(|nick| all || self.users.get(*nick).is_some_and(|user| !user.invisible));
            answer("322", format_args!("{} {} :{}", channel.name, named.count(), channel.topic));
        }
        answer("323", format_args!(":End of LIST"));
    }

    fn who(&self, me: &User, answer: &mut dyn FnMut(&str, std::fmt::Arguments<'_>)) {
        for user in self.users.values() {
            if !user.invisible || user.nick == me.nick || !user.channels.is_disjoint(&me.channels) {
                answer("352", format_args!("* {} {} {} {} H :0 {}", user.name, user.host, self.server, user.nick, user.real));
            }
        }
        answer("315", format_args!("* :End of WHO list"));
    }

    fn whois(&self, asked: &str, answer: &mut dyn FnMut(&str, std::fmt::Arguments<'_>)) {
        if let Some(user) = self.users.get(&fold(asked)) {
            answer("311", format_args!("{} {} {} * :{}", user.nick, user.name, user.host, user.real));
            answer("312", format_args!("{} {} :Test server", user.nick, self.server));
            let channels: Vec<String> = user.channels.iter().filter_map(|name| self.place(user, name)).collect();
            for line in channels.chunks(CHANNELS_IN_LINE) {
                answer("319", format_args!("{} :{}", user.nick, line.join(" ")));
            }
        } else {
            answer("401", format_args!("{asked} :No such nick/channel"));
        }
        answer("318", format_args!("{asked} :End of WHOIS list"));
    }

    /// A channel as it is listed of a user.
    fn place(&self, user: &User, name: &str) -> Option<String> {
        let channel = self.channels.get(name)?;
        let operator = channel.members.get(&fold(&user.nick))?;
        Some(format!("{}{}", if *operator { "@" } else { "" }, channel.name))
    }

    fn lusers(&self, answer: &mut dyn FnMut(&str, std::fmt::Arguments<'_>)) {
        let users = self.users.len();
        answer("251", format_args!(":There are {users} users and 0 services on 1 servers"));
        answer("254", format_args!("{} :channels formed", self.channels.len()));
        answer("255", format_args!(":I have {users} clients and 0 servers"));
    }

    fn ask(&self, number: usize, me: &str, words: &[&str], printed: &mut String) {
        let user = &self.users[me];
        let mut answer = |code: &str, text: std::fmt::Arguments<'_>| {
            // writing to a String never fails
            let _ = writeln!(printed, "{number} :{} {code} {} {text}", self.server, user.nick);
        };
        match words {
            ["LIST"] => self.list(me, &mut answer),
            ["WHO"] => self.who(user, &mut answer),
            ["WHOIS", asked] => self.whois(asked, &mut answer),
            ["LUSERS"] => self.lusers(&mut answer),
            _ => panic!("the scripts have no such line"),
        }
    }
}

fn main() -> io::Result<()> {
    let mut script = String::new();
    io::stdin().read_to_string(&mut script)?;
    let mut room = Room::default();
    // the folded nickname of each client
    let mut clients = vec![String::new()];
    let mut printed = String::with_capacity(2 * BATCH);
    let mut output = io::stdout().lock();
    for line in script.lines() {
        let words: Vec<&str> = line.split(' ').filter(|word| !word.is_empty()).collect();
        match words.as_slice() {
            ["server", name] => room.server = (*name).to_string(),
            ["connect", _, host] => clients.push((*host).to_string()),
            ["say", from, words @ ..] => {
                let number: usize = from.parse().expect("a number");
                match words {
                    ["NICK", nick] => {
                        let host = std::mem::replace(&mut clients[number], fold(nick));
                        let user = User { nick: (*nick).to_string(), host, ..User::default() };
                        room.users.insert(fold(nick), user);
                    }
                    ["USER", name, _, _, real] => {
                        let user = room.users.get_mut(&clients[number]).expect("a nickname");
                        user.name = (*name).to_string();
                        user.real = real.trim_start_matches(':').to_string();
                    }
                    ["JOIN", name] => room.join(&clients[number], name),
                    _ => room.ask(number, &clients[number], words, &mut printed),
                }
            }
            _ => panic!("a bad line"),
        }
        if printed.len() >= BATCH {
            output.write_all(printed.as_bytes())?;
            printed.clear();
        }
    }
    output.write_all(printed.as_bytes())?;
    output.flush()
}
