-- What the forum writes. Nothing else is written by it, in any other place.
create table thread (
    id integer generated always as identity primary key, author text not null, started timestamptz not null default now(), title text not null
);
create table message (
    thread integer references thread on delete cascade, number integer, author text not null, text text not null,
    primary key (thread, number), unique (thread, number, author)
);
create table vote (
    author text, thread integer, number integer, voter text, amount smallint not null check (amount in (-1, 1)),
    primary key (author, thread, number, voter),
    foreign key (thread, number, author) references message (thread, number, author) on delete cascade
);
create table friend (member text, other text, primary key (member, other));
create table watch (member text, thread integer references thread on delete cascade, seen integer not null, primary key (member, thread));

-- The pairs of a thread and of a message have the author in their keys, which is not in the primary key.
alter table thread replica identity full;
alter table message replica identity full;
create publication pequod for table thread, message, vote, friend, watch;
