//# code : the script that shows the code once, and then where a state is in it
const blockAt=address=>origins.find(b=>address>=b.address&&address<b.address+b.cycles);
const codeRows=new Map(),bySource=origins.length>0;
for(const [address,text] of code){
const [moves,long]=text.replace(/ ;$/,'').split(' ['),block=blockAt(address);
const cells=moves.split(' , ').map(move=>make('td','',make('span','',move),make('span','word')));
const row=make('tr',reached.has(address)?'':'unreached',make('td','dim',''+address),...cells,make('td','',long?'['+long:''));
if(bySource)row.prepend(make('td','dim',block?block.name:''));
if(block)row.classList.add(block.tint);
codeRows.set(address,row);
}
const heads=[...bySource?['block']:[],'at',...names.bus,'long'].map(name=>make('th','',name));
find('code').append(make('table','',make('tr','',...heads),...codeRows.values()));
//# where : the script that shows where a state is in the code
let current=null;
function showCode(state){
if(current){current.id='';current.classList.remove('now');[...current.children].forEach(td=>td.classList.remove('active','passed'));}
document.querySelectorAll('.slot').forEach(row=>row.classList.remove('slot'));
current=codeRows.get(state.pc)||null;
if(!current)return;
current.id='now';
current.classList.add('now');
showActs(state);
middle(current,find('code'));
}
//# acts : the script that shows the moves of the current instruction, and brings an element to the middle of its part of the page
function showActs(state){
const cells=[...current.children].slice(bySource?2:1,-1);
cells.forEach((td,k)=>{
const act=state.acts[k];
td.classList.add(act.look);
td.lastChild.textContent=act.told?shown(act.word):'';
});
if(state.jump)for(let k=0;k<state.jump.left;k++){
const row=codeRows.get(state.pc+k);
if(row)row.classList.add('slot');
}
}
function middle(element,part){
const box=element.getBoundingClientRect(),within=part.getBoundingClientRect();
part.scrollTop+=box.top+box.height/2-within.top-within.height/2;
}
//# program : the script that shows the lines of the program once
const lineRows=new Map(),stepsOf=joined.blocks.flatMap(b=>b.steps.map(step=>({...step,name:b.proc+':'+step.line})));
const lineSteps=stepsOf.length?stepsOf:origins.flatMap(b=>b.lines.map(name=>({name,line:name.split(':')[1],text:'',place:''})));
for(const step of lineSteps){
const of=origins.find(b=>b.lines.includes(step.name));
lineRows.set(step.name,make('tr',of?of.tint:'',make('td','dim',of?of.name:''),make('td','dim',''+step.line),make('td','',step.text),make('td','dim',step.place)));
}
find('program').append(make('table','',...lineRows.values()));
document.body.classList.toggle('image',!bySource);
//# source : the script that shows the lines of the current instruction: those of its moves, or all of its block
function showSource(state){
const block=blockAt(state.pc),own=block?block.lines:[],joint=block&&joined.named.get(block.name);
const slots=joint?joint.slots.filter(slot=>slot.address==state.pc&&slot.item):[];
const now=new Set(joint?slots.map(slot=>slot.item.line):own);
for(const [name,row] of lineRows)row.classList.toggle('line',now.has(name));
const first=lineRows.get([...now][0]||own[0]);
if(first)middle(first,find('program'));
}
//# variables : the script that shows the variables that are live in the current block, with the words of their homes
const varWord=(state,v)=>state&&(v.home.startsWith('slot.')?state.kept.get(v.home)||'0':wordOf(state,v.home));
function showVariables(state,before){
const block=blockAt(state.pc),own=block?block.lives:[];
find('variables').replaceChildren(...own.map(v=>cell(v.name+' '+v.home,varWord(state,v),before&&varWord(before,v))),own.length?'':'none is live');
}
