create table t(a integer primary key, b text, c integer);
begin;
with recursive n(i) as (select 1 union all select i+1 from n where i<1500)
insert into t select i, hex(i*i*7919), i*7919%1000 from n;
commit;
create index i on t(c);
select count(*), sum(c), max(b) from t;
select c%7, count(*) from t group by c%7 order by 2;
update t set b=b||'x' where c%3=0;
delete from t where c%5=0;
select count(*), total(length(b)) from t;
