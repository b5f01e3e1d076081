-- A tour of MARS tables in SQLite. tour.out is what it shows, and tour.errors what it is refused; tests/bindings compares them.
.load ./mars_table
create virtual table account using mars('bank.image');
create virtual table payment using mars('bank.image', 'payment');
.echo on

-- Rows come by rising keys. A range of keys is read by the index.
insert into account values (5, 'abc'), (7, 'x'), (6, 'y');
select * from account;
select * from account where key between 6 and 9;
select * from account where key > 5 and key < 7;
select value from account where key = 7;
select * from account where key in (5, 7);
select * from account where key >= 6 order by key desc;
select min(key), max(key), count(*) from account;
-- A bound of another type is SQLite's to compare.
select * from account where key = 5.0;
select * from account where key = '6';
select * from account where key > 5.5;
select count(*) from account where key < 'text';
select count(*) from account where key = null;
select count(*) from account where key < 0;

-- What is refused changes nothing.
insert into account values (4, 'first'), (5, 'again');
insert or ignore into account values (4, 'first'), (5, 'again');
insert or replace into account values (5, 'again');
select * from account where key <= 5;
insert into account values (-1, 'x');
insert into account values (null, 'x');
insert into account values ('abc', 'x');
insert into account values (1, null);
insert into account values (1, '');
insert into account values (1, 'two words');
update account set rowid = 9 where key = 4;
update account set key = 5 where key = 4;

update account set value = value || '!' where key >= 6;
update account set key = key + 10;
delete from account where key = 16;
select * from account;

-- Savepoints of both tables.
begin;
insert into account values (100, 'a');
savepoint one;
insert into account values (101, 'b');
savepoint two;
delete from account where key < 101;
select * from account;
rollback to two;
select * from account;
insert into payment values (9, 'nine');
rollback to one;
select * from account;
select key from payment;
release one;
commit;
select * from account;

begin;
delete from account;
insert into payment values (9, 'nine');
select count(*) from account;
rollback;
select count(*) from account;
select count(*) from payment;

-- A statement that fails takes back what it did, and not the transaction.
begin;
insert into account values (200, 'kept');
update account set value = case key when 200 then 'two words' else 'changed' end;
commit;
select * from account;

-- A savepoint outside of a transaction, in which another table joins.
savepoint one;
insert into account values (300, 'c');
savepoint two;
insert into payment values (300, 'c');
rollback to two;
insert into payment values (301, 'c');
release one;
select a.key, p.key from account a join payment p on p.key between a.key and a.key + 1;

-- A statement that writes more than a transaction may is taken back.
begin;
insert into account with recursive n(i) as (select 1000 union all select i + 1 from n where i < 1999) select i, 'many' from n;
select count(*) from account where key >= 1000;
commit;

-- A table is in the array once it is made, outside of a transaction; what is dropped here stays there.
drop table account;
create virtual table again using mars("bank.image");
select * from again;
create virtual table bad using mars('no/such/folder');
create virtual table bad using mars('tour.sql');
create virtual table bad using mars();
create virtual table bad using mars('bank.image', 'Bad');
begin;
insert into payment values (400, 'kept');
create virtual table bad using mars('bank.image', 'other');
commit;
create virtual table other using mars('bank.image', 'other');
insert into other select * from payment;
select * from other;
create virtual table bad using mars('bank.image', 'main', 'more');
create virtual table fresh using mars('fresh.image');
insert into fresh values (1, 'one');
select * from fresh;
