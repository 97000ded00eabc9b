-- The books of a small bicycle shop: what is in stock, who bought what, and what goes into which account.

/* Tables */

create table supplier (
    id integer primary key,
    name text not null unique,
    city text,
    "delivers on" text default 'Monday'
);

create table article (
    id integer primary key,
    supplier integer not null references supplier (id),
    name text not null,
    price numeric(10, 2) not null check (price > 0),
    stock integer not null default 0,
    unique (supplier, name)
);

create table customer (
    id integer primary key,
    name text not null,
    city text,
    discount numeric(4, 2) default 0
);

create table sale (
    id integer primary key,
    day text not null,
    customer integer references customer (id),
    paid text not null check (paid in ('cash', 'card', 'invoice'))
);

create table sale_line (
    sale integer not null references sale (id),
    article integer not null references article (id),
    units integer not null check (units > 0),
    primary key (sale, article)
);

create table account (
    code text primary key,
    title text not null
);

Create Table ledger (
    day text not null,
    account text not null references account (code),
    amount numeric(12, 2) not null,
    note text,
    unique (day, account, note)
);

create table day_total (
    day text not null,
    account text not null references account (code),
    amount numeric(12, 2) not null,
    unique (day, account)
);

create unique index article_by_name on article (name, supplier);
create index sale_by_day on sale (day);

-- Views

create view line_amount as
select l.sale, s.day, s.customer, s.paid, l.units * a.price * (1 - coalesce(c.discount, 0)) as amount
from sale_line l
join sale s on s.id = l.sale
join article a on a.id = l.article
left join customer c on c.id = s.customer;

create view sale_amount as
select sale, day, customer, paid, sum(amount) as amount
from line_amount
group by sale, day, customer, paid;

create view short_of_stock as
select a.name, a.stock, p.name as supplier, p."delivers on"
from article a join supplier p on p.id = a.supplier
where a.stock < 3
order by a.stock, a.name;

-- What happens by itself

create trigger stock_goes_down after insert on sale_line for each row begin
    update article set stock = stock - new.units where id = new.article;
end;

create trigger sale_is_booked after insert on sale_line for each row begin
    insert into ledger (day, account, amount, note)
    select s.day, case s.paid when 'cash' then '1000' when 'card' then '1200' else '1400' end,
        new.units * a.price, 'sale ' || new.sale || ', article ' || new.article
    from sale s join article a on a.id = new.article
    where s.id = new.sale;
end;

create trigger amount_is_totalled after insert on ledger when new.amount > 0 begin
    update day_total set amount = amount + new.amount where day = new.day and account = new.account;
    insert into day_total (day, account, amount)
    select new.day, new.account, new.amount
    where not exists (select 1 from day_total t where t.day = new.day and t.account = new.account);
end;

create trigger correction_is_totalled after insert on ledger when new.amount <= 0 begin
    insert into day_total (day, account, amount) values (new.day, new.account, new.amount);
end;

-- What there is
insert into supplier (id, name, city, "delivers on") values (1, 'Kettler & Sons', 'Hamburg', 'Thursday');
insert into supplier (id, name, city, "delivers on") values (2, 'Velo Nord', 'Kiel', 'Thursday');
insert into supplier (id, name, city) values (3, 'Ringlé', 'Lyon');
insert into supplier (id, name, city, "delivers on") values (4, 'Bell Works', 'Leeds', 'Monday');
insert into supplier (id, name, city, "delivers on") values (5, 'O''Hara Tyres', 'Cork', 'Friday');

insert into article (id, supplier, name, price, stock) values
    (1, 2, 'inner tube', 85.00, 18),
    (2, 1, 'tyre 28 inch', 49.95, 23),
    (3, 4, 'tyre 26 inch', 71.00, 23),
    (4, 1, 'saddle', 29.95, 25),
    (5, 2, 'chain', 51.50, 12),
    (6, 2, 'bell', 81.95, 16),
    (7, 2, 'front light', 2.00, 21),
    (8, 2, 'rear light', 23.50, 26),
    (9, 3, 'dynamo', 27.50, 19),
    (10, 2, 'pump', 51.90, 9),
    (11, 3, 'pedal', 55.50, 17),
    (12, 3, 'brake cable', 10.90, 27),
    (13, 5, 'brake pad', 77.00, 29),
    (14, 1, 'hub', 41.90, 27),
    (15, 4, 'rim', 42.50, 38),
    (16, 4, 'spoke', 24.00, 24),
    (17, 1, 'lock', 47.95, 9),
    (18, 5, 'basket', 55.90, 32),
    (19, 5, 'child seat', 3.95, 10),
    (20, 2, 'mudguard', 81.50, 15),
    (21, 2, 'stand', 61.90, 40),
    (22, 3, 'handlebar', 69.90, 37),
    (23, 1, 'grip', 77.90, 26),
    (24, 1, 'bottle', 57.00, 21),
    (25, 3, 'helmet', 67.90, 17);

insert into customer (id, name, city, discount) values (1, 'Ada Brandt', 'Lübeck', 0.05);
insert into customer (id, name, city, discount) values (2, 'Bo Larsen', 'Plön', 0);
insert into customer (id, name, city, discount) values (3, 'Clara Vogt', 'Lübeck', 0.05);
insert into customer (id, name, city, discount) values (4, 'Dario Conti', 'Lübeck', 0);
insert into customer (id, name, city, discount) values (5, 'Edda Thiel', 'Kiel', 0);
insert into customer (id, name, city, discount) values (6, 'Finn O''Neill', 'Lübeck', 0.1);
insert into customer (id, name, city, discount) values (7, 'Gesa Petersen', 'Hamburg', 0);
insert into customer (id, name, city, discount) values (8, 'Hugo Blanc', 'Kiel', 0.1);
insert into customer (id, name, city, discount) values (9, 'Ida Kruse', 'Kiel', 0);
insert into customer (id, name, city, discount) values (10, 'Jan Novak', 'Plön', 0.05);
insert into customer (id, name, city, discount) values (11, 'Karla Meyer', 'Lübeck', 0.1);
insert into customer (id, name, city, discount) values (12, 'Lars Holm', null, 0);

insert into account (code, title) values
    ('1000', 'cash'),
    ('1200', 'bank'),
    ('1400', 'customers owe'),
    ('1600', 'we owe'),
    ('4000', 'sales'),
    ('5000', 'goods'),
    ('6000', 'rent and wages');

-- The sales of March

insert into sale (id, day, customer, paid) values (1, '2024-03-01', 1, 'card');
insert into sale_line (sale, article, units) values (1, 5, 3);

insert into sale (id, day, customer, paid) values (2, '2024-03-02', 11, 'cash');
insert into sale_line (sale, article, units) values (2, 14, 2);

insert into sale (id, day, customer, paid) values (3, '2024-03-02', 1, 'card');
insert into sale_line (sale, article, units) values (3, 15, 3);

insert into sale (id, day, customer, paid) values (4, '2024-03-03', 8, 'invoice');
insert into sale_line (sale, article, units) values (4, 16, 2), (4, 9, 2);

insert into sale (id, day, customer, paid) values (5, '2024-03-04', 2, 'invoice');
insert into sale_line (sale, article, units) values (5, 21, 2);

insert into sale (id, day, customer, paid) values (6, '2024-03-05', 2, 'card');
insert into sale_line (sale, article, units) values (6, 3, 2), (6, 25, 3);

insert into sale (id, day, customer, paid) values (7, '2024-03-06', 1, 'card');
insert into sale_line (sale, article, units) values (7, 16, 3), (7, 9, 3);

insert into sale (id, day, customer, paid) values (8, '2024-03-06', null, 'cash');
insert into sale_line (sale, article, units) values (8, 16, 3);

insert into sale (id, day, customer, paid) values (9, '2024-03-08', 11, 'card');
insert into sale_line (sale, article, units) values (9, 17, 3), (9, 21, 2);

insert into sale (id, day, customer, paid) values (10, '2024-03-09', 11, 'invoice');
insert into sale_line (sale, article, units) values (10, 12, 2), (10, 6, 2), (10, 23, 2);

insert into sale (id, day, customer, paid) values (11, '2024-03-10', 3, 'cash');
insert into sale_line (sale, article, units) values (11, 16, 3), (11, 10, 1);

insert into sale (id, day, customer, paid) values (12, '2024-03-10', null, 'card');
insert into sale_line (sale, article, units) values (12, 20, 3);

insert into sale (id, day, customer, paid) values (13, '2024-03-11', 7, 'invoice');
insert into sale_line (sale, article, units) values (13, 24, 1), (13, 1, 1);

insert into sale (id, day, customer, paid) values (14, '2024-03-11', null, 'invoice');
insert into sale_line (sale, article, units) values (14, 8, 3);

insert into sale (id, day, customer, paid) values (15, '2024-03-12', 11, 'card');
insert into sale_line (sale, article, units) values (15, 6, 1);

insert into sale (id, day, customer, paid) values (16, '2024-03-13', 2, 'card');
insert into sale_line (sale, article, units) values (16, 18, 1);

insert into sale (id, day, customer, paid) values (17, '2024-03-15', 6, 'invoice');
insert into sale_line (sale, article, units) values (17, 19, 1);

insert into sale (id, day, customer, paid) values (18, '2024-03-16', 12, 'card');
insert into sale_line (sale, article, units) values (18, 9, 3), (18, 14, 3), (18, 4, 2);

insert into sale (id, day, customer, paid) values (19, '2024-03-17', 10, 'cash');
insert into sale_line (sale, article, units) values (19, 18, 2), (19, 17, 3);

insert into sale (id, day, customer, paid) values (20, '2024-03-18', 3, 'card');
insert into sale_line (sale, article, units) values (20, 15, 1), (20, 5, 3);

insert into sale (id, day, customer, paid) values (21, '2024-03-19', 10, 'cash');
insert into sale_line (sale, article, units) values (21, 12, 3);

insert into sale (id, day, customer, paid) values (22, '2024-03-20', 2, 'invoice');
insert into sale_line (sale, article, units) values (22, 11, 3);

insert into sale (id, day, customer, paid) values (23, '2024-03-22', 7, 'cash');
insert into sale_line (sale, article, units) values (23, 10, 2), (23, 16, 2), (23, 23, 1);

insert into sale (id, day, customer, paid) values (24, '2024-03-22', 10, 'invoice');
insert into sale_line (sale, article, units) values (24, 16, 2), (24, 9, 1);

insert into sale (id, day, customer, paid) values (25, '2024-03-23', 8, 'cash');
insert into sale_line (sale, article, units) values (25, 1, 3), (25, 4, 2), (25, 22, 1);

insert into sale (id, day, customer, paid) values (26, '2024-03-24', 3, 'cash');
insert into sale_line (sale, article, units) values (26, 18, 2), (26, 9, 1), (26, 8, 1);

insert into sale (id, day, customer, paid) values (27, '2024-03-25', null, 'card');
insert into sale_line (sale, article, units) values (27, 16, 2), (27, 20, 3);

insert into sale (id, day, customer, paid) values (28, '2024-03-26', 10, 'cash');
insert into sale_line (sale, article, units) values (28, 10, 2);

insert into sale (id, day, customer, paid) values (29, '2024-03-26', 12, 'invoice');
insert into sale_line (sale, article, units) values (29, 24, 1), (29, 17, 2);

insert into sale (id, day, customer, paid) values (30, '2024-03-27', null, 'invoice');
insert into sale_line (sale, article, units) values (30, 2, 1);

-- What was bought, and paid for

insert into ledger values ('2024-03-01', '6000', 850.00, 'rent');
insert into ledger values ('2024-03-06', '5000', 312.40, 'tyres'), ('2024-03-06', '1600', 312.40, 'tyres');
insert into ledger values ('2024-03-15', '5000', 96.00, 'bells and lights'), ('2024-03-15', '1600', 96.00, 'bells and lights');
insert into ledger values ('2024-03-28', '6000', 2140.00, 'wages');
update article set stock = stock + 20 where name like 'tyre%';
update article set stock = stock + 12 where name in ('bell', 'front light', 'rear light');

-- Two goods came back

insert into ledger (day, account, amount, note)
select day, '1000', -amount, 'returned: sale ' || sale from sale_amount where sale = (select min(id) from sale where paid = 'cash');
delete from sale_line where sale in (select id from sale where day > '2024-03-30');

-- Reports

select title, sum(amount) as total
from ledger join account on code = account
where day between '2024-03-01' and '2024-03-31'
group by title
having sum(amount) <> 0
order by total desc;

select c.name, count(*) as sales, sum(v.amount) as spent
from customer c join sale_amount v on v.customer = c.id
group by c.name
order by spent desc, c.name
limit 5;

with by_article (article, units) as (
    select article, sum(units) from sale_line group by article
), best as (
    select article from by_article where units = (select max(units) from by_article)
)
select a.name, p.name as supplier, b.units
from article a
join by_article b on b.article = a.id
join supplier p on p.id = a.supplier
where a.id in (select article from best) or a.price > 60 and not a.stock = 0;

select name, stock, "delivers on" from short_of_stock;

select day, case when amount >= 100 then 'good' when amount >= 20 then 'fair' else 'poor' end as how
from day_total
where account = '1000'
union all
select 'all', cast(sum(amount) as text) from day_total
order by day;
