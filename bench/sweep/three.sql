create table t(a integer primary key, b text);
begin;
insert into t values(1,'one'),(2,'two'),(3,'three');
commit;
update t set b=b||'!' where a>1;
select * from t order by b;
