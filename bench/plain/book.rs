//! Accounts, entries and the close. Amounts are whole cents.

const MOST_ASSETS: usize = 64;
const MOST_CLOSES: i64 = 360;
/// The most that the claims of a class come to, and its charges owed with its open pool.
const CLASS_LIMIT: i64 = 2_000_000_000;
/// The most that an account's entries of a month come to.
const ENTRIES_LIMIT: i64 = 1_000_000_000;
/// The most that may be owed where a term is given.
const OWED_LIMIT: i64 = 2_000_000_000;

/// Why an entry is refused, with its number.
#[derive(Clone, Copy, Debug, PartialEq)]
pub enum Refusal {
    AllClosed = 5,
    Listed = 6,
    Full = 7,
    NotListed = 8,
    WrongMonth = 9,
    TermGiven = 10,
    NoCommitment = 11,
    TooFarBelow = 12,
    PastLimit = 13,
    NotOwed = 14,
    Marked = 15,
}

/// The class of an adjustment; figures by class are pairs in this order.
#[derive(Clone, Copy, PartialEq)]
pub enum Class {
    Delivery,
    Availability,
}

const CLASSES: [usize; 2] = [Class::Delivery as usize, Class::Availability as usize];

#[derive(Clone, Copy, Default, PartialEq)]
enum Mark {
    #[default]
    NotReady,
    NextPeriod,
    Ready,
}

#[derive(Default)]
struct Account {
    asset: i64,
    /// Award, commitment and year of the last term; year 0 is no term.
    award: i64,
    commitment: i64,
    year: i64,
    cap_base: i64,
    mark: Mark,
    general: i64,
    entries: i64,
    claim: [i64; 2],
    charge: [i64; 2],
}

/// What a close did to an account.
#[derive(Default)]
pub struct Row {
    pub asset: i64,
    pub award: i64,
    pub taken: [i64; 2],
    pub share: [i64; 2],
    pub paid: i64,
    pub carried: i64,
}

impl Account {
    fn carried(&self) -> i64 {
        self.general + self.entries + self.claim[0] + self.claim[1] - self.charge[0] - self.charge[1]
    }

    fn award_in(&self, year: i64) -> i64 {
        if self.year == year { self.award } else { 0 }
    }

    fn commitment_in(&self, year: i64) -> i64 {
        if self.year == year { self.commitment } else { 0 }
    }

    /// What a term with this award makes due at once of what is owed.
    fn invoice(&self, award: i64) -> i64 {
        let owed = -self.carried();
        let last = self.award;
        if owed > 0 && last > 0 && award < last {
            owed * (last - award).min(last) / last
        } else {
            0
        }
    }

    /// What the standard pile pays of a total.
    fn payment(&self, year: i64, total: i64) -> i64 {
        let mut paid = total;
        if self.award_in(year) >= 0 {
            paid = paid.max(0).min(2 * self.cap_base);
        }
        if self.commitment_in(year) > 0 && self.mark != Mark::Ready {
            paid = paid.min(0);
        }
        paid
    }
}

#[derive(Default)]
pub struct Book {
    accounts: Vec<Account>,
    pools: [i64; 2],
    closes: i64,
}

impl Book {
    pub fn closes(&self) -> i64 {
        self.closes
    }

    fn month(&self) -> i64 {
        self.closes % 12 + 1
    }

    fn year(&self) -> i64 {
        self.closes / 12 + 1
    }

    fn find(&self, asset: i64) -> Result<usize, Refusal> {
        self.accounts.iter().position(|account| account.asset == asset).ok_or(Refusal::NotListed)
    }

    pub fn list(&mut self, asset: i64) -> Result<(), Refusal> {
        if self.find(asset).is_ok() {
            return Err(Refusal::Listed);
        }
        if self.accounts.len() == MOST_ASSETS {
            return Err(Refusal::Full);
        }
        self.accounts.push(Account { asset, ..Account::default() });
        Ok(())
    }

    /// Gives a term and answers the invoice.
    pub fn term(&mut self, asset: i64, award: i64, commitment: i64, ready: bool) -> Result<i64, Refusal> {
        let at = self.find(asset)?;
        let year = self.year();
        let account = &self.accounts[at];
        if self.month() != 1 {
            return Err(Refusal::WrongMonth);
        }
        if account.year == year {
            return Err(Refusal::TermGiven);
        }
        if account.carried() < -OWED_LIMIT {
            return Err(Refusal::TooFarBelow);
        }
        let invoice = account.invoice(award);
        self.credit(at, invoice);
        let account = &mut self.accounts[at];
        account.cap_base = award.max(if commitment > 0 { 0 } else { account.cap_base });
        if ready {
            account.mark = Mark::Ready;
        }
        account.award = award;
        account.commitment = commitment;
        account.year = year;
        Ok(invoice)
    }

    /// Puts cents against the delivery charge, then the availability charge, then the general balance.
    fn credit(&mut self, at: usize, cents: i64) {
        let account = &mut self.accounts[at];
        let mut left = cents;
        for class in CLASSES {
            let part = left.min(account.charge[class]);
            account.charge[class] -= part;
            self.pools[class] += part;
            left -= part;
        }
        account.general += left;
    }

    /// The account that an over or under of this class is for.
    fn adjusted(&self, class: Class, asset: i64) -> Result<usize, Refusal> {
        let at = self.find(asset)?;
        if class == Class::Availability && self.month() != 12 {
            return Err(Refusal::WrongMonth);
        }
        self.committed(at)
    }

    fn committed(&self, at: usize) -> Result<usize, Refusal> {
        if self.accounts[at].commitment_in(self.year()) > 0 {
            Ok(at)
        } else {
            Err(Refusal::NoCommitment)
        }
    }

    pub fn over(&mut self, class: Class, asset: i64, cents: i64) -> Result<(), Refusal> {
        let at = self.adjusted(class, asset)?;
        let class = class as usize;
        let claims: i64 = self.accounts.iter().map(|account| account.claim[class]).sum();
        if claims + cents > CLASS_LIMIT {
            return Err(Refusal::PastLimit);
        }
        self.accounts[at].claim[class] += cents;
        Ok(())
    }

    pub fn under(&mut self, class: Class, asset: i64, cents: i64) -> Result<(), Refusal> {
        let at = self.adjusted(class, asset)?;
        let class = class as usize;
        let charges: i64 = self.accounts.iter().map(|account| account.charge[class]).sum();
        if charges + self.pools[class] + cents > CLASS_LIMIT {
            return Err(Refusal::PastLimit);
        }
        self.accounts[at].charge[class] += cents;
        Ok(())
    }

    pub fn uplift(&mut self, asset: i64, cents: i64) -> Result<(), Refusal> {
        let at = self.find(asset)?;
        let at = self.committed(at)?;
        let account = &mut self.accounts[at];
        if account.entries + cents > ENTRIES_LIMIT {
            return Err(Refusal::PastLimit);
        }
        account.entries += cents;
        Ok(())
    }

    pub fn payin(&mut self, asset: i64, cents: i64) -> Result<(), Refusal> {
        let at = self.find(asset)?;
        if cents > -self.accounts[at].carried() {
            return Err(Refusal::NotOwed);
        }
        self.credit(at, cents);
        Ok(())
    }

    pub fn ready(&mut self, asset: i64) -> Result<(), Refusal> {
        let at = self.find(asset)?;
        let account = &mut self.accounts[at];
        if account.mark != Mark::NotReady {
            return Err(Refusal::Marked);
        }
        account.mark = Mark::NextPeriod;
        Ok(())
    }

    /// Closes the open period: fills the rows and answers the residue of each class.
    pub fn close(&mut self, rows: &mut Vec<Row>) -> Result<[i64; 2], Refusal> {
        if self.closes == MOST_CLOSES {
            return Err(Refusal::AllClosed);
        }
        rows.clear();
        self.take_charges(rows);
        let residue = CLASSES.map(|class| self.share(class, rows));
        self.settle(rows);
        self.closes += 1;
        Ok(residue)
    }

    /// Starts a row for each account with the charges that are taken, which join the pools.
    fn take_charges(&mut self, rows: &mut Vec<Row>) {
        let year = self.year();
        for account in &mut self.accounts {
            let award = account.award_in(year);
            let mut funds = (account.general + account.entries + award).max(0);
            let mut taken = account.charge;
            if award >= 0 {
                for part in &mut taken {
                    *part = (*part).min(funds);
                    funds -= *part;
                }
            }
            for class in CLASSES {
                account.charge[class] -= taken[class];
                self.pools[class] += taken[class];
            }
            rows.push(Row { asset: account.asset, award, taken, ..Row::default() });
        }
    }

    /// Shares a pool pro rata among the claims, empties it, and answers what no claim took.
    fn share(&mut self, class: usize, rows: &mut [Row]) -> i64 {
        let pool = std::mem::take(&mut self.pools[class]);
        let claims: i64 = self.accounts.iter().map(|account| account.claim[class]).sum();
        if claims == 0 {
            return pool;
        }
        let shared = pool.min(claims);
        let (mut claimed, mut given) = (0, 0);
        for (account, row) in self.accounts.iter_mut().zip(rows) {
            claimed += account.claim[class];
            let quotient = shared * claimed / claims;
            row.share[class] = quotient - given;
            account.claim[class] -= quotient - given;
            given = quotient;
        }
        pool - shared
    }

    /// Pays each account and carries the rest.
    fn settle(&mut self, rows: &mut [Row]) {
        let year = self.year();
        for (account, row) in self.accounts.iter_mut().zip(rows) {
            let taken = row.taken[0] + row.taken[1];
            let share = row.share[0] + row.share[1];
            let total = account.general + account.entries + row.award - taken + share;
            row.paid = account.payment(year, total);
            account.general = total - row.paid;
            account.entries = 0;
            if account.mark == Mark::NextPeriod {
                account.mark = Mark::Ready;
            }
            row.carried = account.carried();
        }
    }
}
