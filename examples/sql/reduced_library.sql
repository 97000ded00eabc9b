CREATE TABLE loan (
    copy ,
    note
);
CREATE VIEW lent_out AS
    SELECT note
    FROM loan ;
ALTER TABLE loan DROP note;
