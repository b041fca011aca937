// SPDX-License-Identifier: GPL-2.0-or-later
/*
 * A driver that puts a musgarento card under load and finds out whether an interrupt was lost.
 *
 * The card counts for each event how often it was neither refused nor lost (device.c, SELFTEST_COUNTS), before the message
 * goes out. The handler of a vector reads the counts of the events that mean it. So with no more events and every vector
 * open, what the handlers saw last is what the card has counted, unless an interrupt was lost. A line written to
 * /sys/module/storm/parameters/act is a command; its result is read there.
 */
#include <linux/delay.h>
#include <linux/dma-mapping.h>
#include <linux/interrupt.h>
#include <linux/irq.h>
#include <linux/module.h>
#include <linux/msi.h>
#include <linux/pci.h>

#define EVENTS 64
#define REGISTER_EVENT 0x80
#define REGISTER_RATE 0x88
#define REGISTER_COUNTS 0x800

static struct pci_dev *cards[4]; /* by slot, from 3 on */
static struct pci_dev *card;     /* the one with MSI-X, which is put under load */
static void __iomem *registers;
static unsigned int vectors; /* that are granted; 0 with no mechanism but the pin */
static u32 seen[EVENTS];
static unsigned long handled[EVENTS];
static int which[EVENTS];
static u32 random_state;
static char result[128];

static u32 next_random(u32 below)
{
	random_state ^= random_state << 13;
	random_state ^= random_state >> 17;
	random_state ^= random_state << 5;
	return random_state % below;
}

static irqreturn_t handler(int irq, void *data)
{
	int v = *(int *)data, e;

	for (e = v; e < EVENTS; e += vectors)
		seen[e] = readl(registers + REGISTER_COUNTS + 4 * e);
	handled[v]++;
	return IRQ_HANDLED;
}

static void close_mode(void)
{
	unsigned int v;

	for (v = 0; v < vectors; v++)
		free_irq(pci_irq_vector(card, v), &which[v]);
	if (vectors)
		pci_free_irq_vectors(card);
	vectors = 0;
}

static int open_mode(unsigned int n, unsigned int flags)
{
	unsigned int v;
	int got;

	close_mode();
	if (!n)
		return 0;
	got = pci_alloc_irq_vectors(card, n, n, flags);
	if (got < 0)
		return got;
	vectors = n;
	for (v = 0; v < n; v++) {
		which[v] = v;
		got = request_irq(pci_irq_vector(card, v), handler, 0, "storm", &which[v]);
		if (got) {
			vectors = v;
			close_mode();
			return got;
		}
	}
	return 0;
}

/* The mask bit of a vector, as the capability has it. */
static void set_mask(unsigned int v, bool masked)
{
	struct irq_data *d = irq_get_irq_data(pci_irq_vector(card, v));

	if (masked)
		pci_msi_mask_irq(d);
	else
		pci_msi_unmask_irq(d);
}

static void set_function_mask(bool masked)
{
	u16 control;

	if (!card->msix_enabled)
		return;
	pci_read_config_word(card, card->msix_cap + PCI_MSIX_FLAGS, &control);
	control &= ~PCI_MSIX_FLAGS_MASKALL;
	pci_write_config_word(card, card->msix_cap + PCI_MSIX_FLAGS, control | (masked ? PCI_MSIX_FLAGS_MASKALL : 0));
}

static void open_all(void)
{
	unsigned int v;

	pci_set_master(card);
	set_function_mask(false);
	for (v = 0; v < vectors; v++)
		set_mask(v, false);
}

/* Address and data written again, as a change of affinity does. */
static void rewrite(unsigned int v)
{
	struct msi_msg message;

	get_cached_msi_msg(pci_irq_vector(card, v), &message);
	set_mask(v, true);
	pci_write_msi_msg(pci_irq_vector(card, v), &message);
	set_mask(v, false);
}

static void step(void)
{
	unsigned int v = next_random(vectors);

	switch (next_random(10)) {
	case 0:
	case 1:
	case 2:
		set_mask(v, true);
		break;
	case 3:
	case 4:
		set_mask(v, false);
		break;
	case 5:
		set_function_mask(next_random(2));
		break;
	case 6:
		if (next_random(2))
			pci_clear_master(card);
		else
			pci_set_master(card);
		break;
	case 7:
		rewrite(v);
		break;
	case 8:
		irq_set_affinity(pci_irq_vector(card, v), cpumask_of(next_random(num_online_cpus())));
		break;
	default:
		writel(next_random(EVENTS), registers + REGISTER_EVENT);
	}
	udelay(next_random(20));
}

static unsigned int lost(void)
{
	unsigned int e, n = 0;

	for (e = 0; e < EVENTS; e++)
		n += seen[e] != readl(registers + REGISTER_COUNTS + 4 * e);
	return n;
}

static unsigned long counted(void)
{
	unsigned long n = 0;
	unsigned int e;

	for (e = 0; e < EVENTS; e++)
		n += readl(registers + REGISTER_COUNTS + 4 * e);
	return n;
}

/* A reset of the function, by the PCIe capability: the card forgets what waits, and counts from 0 again. */
static void reset_prepare(struct pci_dev *dev)
{
	unsigned int v;

	for (v = 0; v < vectors; v++)
		disable_irq(pci_irq_vector(card, v));
	memset(seen, 0, sizeof(seen));
}

static void reset_done(struct pci_dev *dev)
{
	unsigned int v;

	for (v = 0; v < vectors; v++)
		enable_irq(pci_irq_vector(card, v));
}

static const struct pci_error_handlers handlers = {
	.reset_prepare = reset_prepare,
	.reset_done = reset_done,
};

/* How many events no handler saw, once everything that is under way has come. */
static unsigned int missed(void)
{
	unsigned int tries;

	open_all();
	for (tries = 0; tries < 400 && lost(); tries++)
		usleep_range(500, 600);
	return lost();
}

static void steps(unsigned int n)
{
	while (n--)
		step();
}

/* Rounds of steps under load; at the end of each all is opened, and nothing may be missed. */
static void storm(unsigned int rounds, unsigned int n, unsigned int rate)
{
	unsigned long before = counted();
	unsigned int sum = 0;

	while (rounds--) {
		writel(rate, registers + REGISTER_RATE);
		steps(n);
		writel(0, registers + REGISTER_RATE);
		sum += missed();
	}
	scnprintf(result, sizeof(result), "missed %u of %lu events", sum, counted() - before);
}

static int change_mode(bool msix)
{
	return msix ? open_mode(EVENTS, PCI_IRQ_MSIX) : open_mode(32, PCI_IRQ_MSI);
}

/* The same with a reset and two changes of the mechanism in each round. What waits in the one that is not in force
   comes when it is in force again. */
static int upheaval(unsigned int rounds, unsigned int n, unsigned int rate)
{
	unsigned long events = 0;
	unsigned int sum = 0;
	int refused = 0;

	while (rounds-- && !refused) {
		writel(rate, registers + REGISTER_RATE);
		steps(n);
		refused = pci_reset_function(card);
		steps(n);
		refused = refused ? : change_mode(!card->msix_enabled);
		if (refused)
			break;
		steps(n);
		writel(0, registers + REGISTER_RATE);
		open_all();
		usleep_range(5000, 6000);
		refused = change_mode(!card->msix_enabled);
		sum += missed();
		events += counted();
	}
	writel(0, registers + REGISTER_RATE);
	scnprintf(result, sizeof(result), "missed %u of %lu events", sum, events);
	return refused;
}

/* What the handlers saw is what the card has counted. */
static void catch_up(void)
{
	int e;

	for (e = 0; e < EVENTS; e++)
		seen[e] = readl(registers + REGISTER_COUNTS + 4 * e);
}

/* Events 0 to 31 of a card whose MSI writes data 49A0h, with the vector in its low five bits, to a page of memory: how many
   arrive otherwise. */
static void wrong_messages(struct pci_dev *dev, void __iomem *at, u32 *word, dma_addr_t page)
{
	int wrong = 0, msi = dev->msi_cap, e;
	u16 control;
	bool wide;

	pci_read_config_word(dev, msi + PCI_MSI_FLAGS, &control);
	wide = control & PCI_MSI_FLAGS_64BIT;
	pci_write_config_dword(dev, msi + PCI_MSI_ADDRESS_LO, lower_32_bits(page));
	if (wide)
		pci_write_config_dword(dev, msi + PCI_MSI_ADDRESS_HI, upper_32_bits(page));
	pci_write_config_word(dev, msi + (wide ? PCI_MSI_DATA_64 : PCI_MSI_DATA_32), 0x49a0);
	pci_write_config_word(dev, msi + PCI_MSI_FLAGS, control | 5 << 4 | PCI_MSI_FLAGS_ENABLE);
	for (e = 0; e < 32; e++) {
		WRITE_ONCE(*word, 0);
		writel(e, at + REGISTER_EVENT);
		wrong += READ_ONCE(*word) != 0x49a0 + e;
	}
	pci_write_config_word(dev, msi + PCI_MSI_FLAGS, control);
	scnprintf(result, sizeof(result), "%d of 32 messages wrong, %s 4 GiB", wrong, page >> 32 ? "above" : "below");
}

/* The guest maps what a device reaches as high as it can (iommu.forcedac): with 64-bit addresses above 4 GiB. */
static int messages(unsigned int slot)
{
	struct pci_dev *dev = slot < ARRAY_SIZE(cards) ? cards[slot] : NULL;
	dma_addr_t at;
	u16 control;
	u32 *word;

	if (!dev)
		return -ENODEV;
	pci_read_config_word(dev, dev->msi_cap + PCI_MSI_FLAGS, &control);
	dma_set_mask_and_coherent(&dev->dev, DMA_BIT_MASK(control & PCI_MSI_FLAGS_64BIT ? 64 : 32));
	word = dma_alloc_coherent(&dev->dev, PAGE_SIZE, &at, GFP_KERNEL);
	if (!word)
		return -ENOMEM;
	wrong_messages(dev, pci_get_drvdata(dev), word, at);
	dma_free_coherent(&dev->dev, PAGE_SIZE, word, at);
	catch_up();
	return 0;
}

static int act(const char *line)
{
	unsigned int a = 0, b = 0, c = 0;

	strscpy(result, "done", sizeof(result));
	if (sscanf(line, "msix %u", &a) == 1)
		return open_mode(a, PCI_IRQ_MSIX);
	if (sscanf(line, "msi %u", &a) == 1)
		return open_mode(a, PCI_IRQ_MSI);
	if (sscanf(line, "mask %u", &a) == 1 && a < vectors)
		set_mask(a, true);
	else if (sscanf(line, "event %u", &a) == 1)
		writel(a, registers + REGISTER_EVENT);
	else if (sscanf(line, "rate %u", &a) == 1)
		writel(a, registers + REGISTER_RATE);
	else if (sscanf(line, "seed %u", &a) == 1)
		random_state = a;
	else if (sscanf(line, "storm %u %u %u", &a, &b, &c) == 3)
		storm(a, b, c);
	else if (sscanf(line, "upheaval %u %u %u", &a, &b, &c) == 3)
		return upheaval(a, b, c);
	else if (sscanf(line, "handled %u", &a) == 1 && a < EVENTS)
		scnprintf(result, sizeof(result), "%lu", handled[a]);
	else if (sscanf(line, "messages %u", &a) == 1)
		return messages(a);
	else if (sysfs_streq(line, "pin"))
		close_mode();
	else if (sysfs_streq(line, "open"))
		open_all();
	else if (sysfs_streq(line, "missed"))
		scnprintf(result, sizeof(result), "missed %u of %lu events", missed(), counted());
	else
		return -EINVAL;
	return 0;
}

static int act_set(const char *line, const struct kernel_param *parameter)
{
	return card ? act(line) : -ENODEV;
}

static int act_get(char *buffer, const struct kernel_param *parameter)
{
	return scnprintf(buffer, PAGE_SIZE, "%s\n", result);
}

static const struct kernel_param_ops act_ops = { .set = act_set, .get = act_get };
module_param_cb(act, &act_ops, NULL, 0600);

static int probe(struct pci_dev *dev, const struct pci_device_id *id)
{
	unsigned int slot = PCI_SLOT(dev->devfn) - 3;
	void __iomem *at;
	int refused = pcim_enable_device(dev);

	if (refused)
		return refused;
	at = pcim_iomap(dev, 0, 0);
	if (!at || slot >= ARRAY_SIZE(cards))
		return -ENODEV;
	pci_set_drvdata(dev, at);
	pci_set_master(dev);
	cards[slot] = dev;
	if (dev->msix_cap) {
		card = dev;
		registers = at;
		random_state = 1;
		catch_up();
	}
	return 0;
}

static void leave(struct pci_dev *dev)
{
	if (dev != card)
		return;
	writel(0, registers + REGISTER_RATE);
	close_mode();
	card = NULL;
}

static const struct pci_device_id ids[] = {
	{ PCI_DEVICE(PCI_VENDOR_ID_SYNOPSYS, 0xedda) },
	{ },
};
MODULE_DEVICE_TABLE(pci, ids);

static struct pci_driver storm_driver = {
	.name = "storm",
	.id_table = ids,
	.probe = probe,
	.remove = leave,
	.err_handler = &handlers,
};
module_pci_driver(storm_driver);

MODULE_DESCRIPTION("Load for a musgarento card");
MODULE_LICENSE("GPL");
