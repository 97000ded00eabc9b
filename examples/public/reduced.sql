create table article (
    id ,
    supplier ,
    name ,
    price ,
    stock
);
create table sale (
    id ,
    day ,
    customer ,
    paid
);

create table sale_line (
    sale ,
    article ,
    units
);
Create Table ledger (
    day ,
    account ,
    amount ,
    note
);

create table day_total (
    day ,
    account ,
    amount ,
    unique (day, account)
);
create trigger sale_is_booked after insert on sale_line begin
    insert into ledger
select day, '1000' ,
        new.units , 'sale '
from sale join article ;
end;
create trigger correction_is_totalled after insert on ledger begin
    insert into day_total values (new.day, new.account, new.amount);
end;
insert into article values
    (1, 2, 'inner tube', 85.00, 18) ,
    (10, 2, 'pump', 51.90, 9) ;
insert into sale values (28, '2024-03-26', 10, 'cash');
insert into sale_line values (28, 10, 2);
